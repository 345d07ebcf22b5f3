import { total } from "../src/cart.js";

test.only("an empty cart", () => total([]) === 0);
