/* eslint no-empty: warn, eqeqeq: off */
// What comments set and suppress.
export function same(a, b) {
  if (a == b) {}
  debugger; // eslint-disable-line no-debugger -- kept for support
  /* eslint-disable */
  debugger;
  /* eslint-enable */
  // eslint-disable-next-line semi
  return a;
}
