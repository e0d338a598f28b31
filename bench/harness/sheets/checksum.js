// The checksum of a frame of Modbus, the low byte first.
crc = frame.reduce((all, byte) => [0, 1, 2, 3, 4, 5, 6, 7].reduce(c => c & 1 ? c >>> 1 ^ 0xa001 : c >>> 1, all ^ byte), 0xffff),
[low, high] = [crc & 0xff, crc >> 8]
