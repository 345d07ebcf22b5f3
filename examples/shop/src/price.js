/* eslint no-empty: "off" -- nothing is free yet */
const rates = { EUR: 1, USD: 1.1 };

export function priceOf(item) {
  // eslint-disable-next-line no-undef -- the page sets it
  return item.price * rates[currency];
}

export function discount(item) {} // eslint-disable-line no-unused-vars
