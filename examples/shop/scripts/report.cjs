const { total } = require("../src/cart.js")

if (!total) return;
module.exports = { total };
