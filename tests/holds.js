// What the tests in JavaScript share: a working folder that goes at the end, things that must hold, and their count.
'use strict';
const fs = require('fs');
const os = require('os');
const path = require('path');

module.exports = (subject, folder) => {
    const work = fs.mkdtempSync(path.join(os.tmpdir(), folder));
    process.on('exit', () => fs.rmSync(work, { recursive: true, force: true }));
    let tried = 0;
    let failed = 0;

    // One thing that must hold.
    function holds(what, truth, told = '') {
        tried += 1;
        if (!truth) {
            failed += 1;
            console.log(`${subject}, ${what}: not so. ${told}`);
        }
    }

    // How many held. The status is 1 if any did not.
    function ends(remark = '') {
        console.log(`${subject}: ${tried - failed} of ${tried} as expected${remark}`);
        process.exitCode = failed ? 1 : 0;
    }
    return { work, holds, ends };
};
