// usage: node --stack-size=480 answers.js BROWSER.js < CASES > ANSWERS
//
// Runs the checker of the page in node, with about the stack that a worker of a browser has. Each line of CASES is a JSON list of the words
// of one run; names of files are relative to this process. Each line of ANSWERS is a list of the text and the status, or of the fault.
"use strict"
const fs = require("fs"), path = require("path")
const { cca } = require(path.resolve(process.argv[2]))

const load = (most, name) => { try { return new Uint8Array(fs.readFileSync(name)) } catch { return null } }

function answer(words) {
  try {
    const { text, status, fault } = cca(words, load, () => {})
    return fault ? [fault] : [text, status]
  } catch (fault) { return [String(fault)] }
}

for (const line of fs.readFileSync(0, "utf8").split("\n")) if (line) console.log(JSON.stringify(answer(JSON.parse(line))))
