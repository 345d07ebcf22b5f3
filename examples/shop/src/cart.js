import { priceOf } from "./price.js";

export function total(cart) {
  let last;
  let sum = 0;
  for (const item of cart) {
    if (item.amount == 0) continue;
    last = item;
    sum += priceOf(item)
  }
  debugger;
  return sum;
}
