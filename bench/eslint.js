// Lints files as modules with ESLint's own library: node bench/eslint.js 'RULE RULE..' FILE..
'use strict';
const fs = require('fs');
const { Linter } = require('eslint');
const [rules, ...names] = process.argv.slice(2);
const linter = new Linter();
const config = { parserOptions: { ecmaVersion: 2022, sourceType: 'module' }, env: { es6: true }, rules: {} };
for (const rule of rules.split(/\s+/)) config.rules[rule] = 2;
let problems = 0;
for (const name of names) {
  problems += linter.verify(fs.readFileSync(name, 'utf8'), config, { filename: name, allowInlineConfig: false }).length;
}
console.log(`${problems} problems`);
