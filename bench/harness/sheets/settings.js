// The settings of a site over those that all sites share.
settings = {
  rate: 20000,
  nominal: 230,
  ...shared,
  ...site,
  channels: [...shared.channels, ...(site.channels ?? [])],
  limits: { ...shared.limits, ...site.limits, sag: site.sag ?? 0.9, swell: site.swell ?? 1.1 },
  debug: typeof site.debug === 'boolean' && site.debug
}
