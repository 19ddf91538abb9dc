
const at = id => document.getElementById(id)
const MOST_BYTES = 67108864 // of any file that the checker reads
const LONG = 2e6 // bytes of a certificate that takes minutes
const TOO_LONG = 12e6 // bytes of a certificate that may need more memory than a browser gives to a page
const SHOWN = 500 // rows of a long table

// ---- elements: always with texts, never with HTML ----

function element(name, attributes = {}, ...inside) {
  const made = document.createElement(name)
  for (const [key, value] of Object.entries(attributes)) made.setAttribute(key, value)
  made.append(...inside)
  return made
}
const paragraph = (...inside) => element("p", {}, ...inside)
const code = text => element("code", {}, text)
const list = items => element("ul", {}, ...items.map(item => element("li", {}, item)))
function opened(title, ...inside) { return element("details", { open: "" }, element("summary", {}, title), ...inside) }
function closed(title, ...inside) { return element("details", {}, element("summary", {}, title), ...inside) }
function wide(label, ...inside) { return element("div", { class: "wide", tabindex: "0", role: "region", "aria-label": label }, element("table", {}, ...inside)) }
const header = names => element("thead", {}, element("tr", {}, ...names.map(([text, kind = ""]) => element("th", { scope: "col", class: kind }, text))))

// ---- texts and lines of files ----

const text_of = bytes => new TextDecoder("utf-8", { ignoreBOM: true }).decode(bytes)
const LINE_FEED = 10

// the place where a line begins, and where it ends; lines count from 1
function line_bounds(bytes, number) {
  let start = 0
  for (let k = 1; k < number; k++) {
    const end = bytes.indexOf(LINE_FEED, start)
    if (end < 0) return [bytes.length, bytes.length]
    start = end + 1
  }
  const end = bytes.indexOf(LINE_FEED, start)
  return [start, end < 0 ? bytes.length : end]
}
function line_of_byte(bytes, place) {
  let number = 1
  for (let k = bytes.indexOf(LINE_FEED); k >= 0 && k < place; k = bytes.indexOf(LINE_FEED, k + 1)) number++
  return number
}
// what can't be seen in a line is written out
const visible = text => text.replace(/[\x00-\x1f\x7f\ufeff]/g, sign => sign === "\r" ? "\\r" : `\\u${sign.charCodeAt(0).toString(16).padStart(4, "0")}`)
function line_shown(bytes, number) {
  const [start, end] = line_bounds(bytes, number)
  if (start >= bytes.length) return paragraph("The file ends before this line.")
  const more = end - start > 300
  return element("pre", {}, code(`${number}: ${visible(text_of(bytes.subarray(start, more ? start + 300 : end)))}${more ? " ..." : ""}`))
}
const count_lines = bytes => line_of_byte(bytes, bytes.length) - (bytes.length && bytes[bytes.length - 1] !== LINE_FEED ? 0 : 1)

// ---- the checker, in a worker of its own: the page never waits for it ----

function start_checker(on_step) {
  const begin = at("checker").textContent + `
    onmessage = ({ data: { number, words, files } }) => {
      try {
        const load = (most, name) => Object.hasOwn(files, name) ? files[name] : null
        postMessage({ number, ...self.cca(words, load, step => postMessage({ step })) })
      } catch (fault) { postMessage({ number, fault: String(fault && fault.message || fault) }) }
    }`
  const address = URL.createObjectURL(new Blob([begin], { type: "text/javascript" }))
  const worker = new Worker(address)
  URL.revokeObjectURL(address)
  const waiting = new Map()
  let last = 0
  worker.onmessage = ({ data }) => {
    if (data.step) on_step(data.step)
    else { waiting.get(data.number)(data); waiting.delete(data.number) }
  }
  worker.onerror = event => { for (const done of waiting.values()) done({ fault: event.message || "the checker has stopped" }) }
  return {
    ask: (words, files) => new Promise(done => { waiting.set(++last, done); worker.postMessage({ number: last, words, files }) }),
    end: () => worker.terminate(),
  }
}

// ---- the files ----

const files = [] // each with name, size, kind, bytes and checksum
const of_kind = kind => files.find(file => file.kind === kind)

async function checksum_of(bytes) {
  if (!(globalThis.crypto && crypto.subtle)) return ""
  const digest = new Uint8Array(await crypto.subtle.digest("SHA-256", bytes))
  return Array.from(digest, byte => byte.toString(16).padStart(2, "0")).join("")
}

// what a file is, by its first bytes, else by its name
function kind_of(name, bytes) {
  const first = text_of(bytes.subarray(0, 4000)).replace(/^\ufeff/, "")
  if (/^[0-9a-f]{64} [ *]\S/.test(first)) return "checksums"
  if (/^p?cert \d/.test(first)) return "cert"
  for (const kind of ["book", "weights", "slots"]) if (first.startsWith(kind + " ")) return kind
  if (/^"?(bid|close|draft|drop|submit)"?,/.test(first)) return "log"
  if (/^\s*(version|tick|category)\s*=/m.test(first)) return "award"
  const end = name.split(".").pop().toLowerCase()
  return Object.hasOwn(KINDS, end) ? end : "other"
}

function notice(text) { at("notices").append(paragraph(text)) }

async function take(given) {
  forget()
  at("notices").replaceChildren()
  for (const file of given) {
    if (file.size > MOST_BYTES) { notice(`${file.name} has ${grouped(file.size)} bytes, and no file of an auction has more than ${grouped(MOST_BYTES)}. It is not taken.`); continue }
    let bytes
    try { bytes = new Uint8Array(await file.arrayBuffer()) } catch { notice(`${file.name} can't be read. If it is a folder, choose the files in it.`); continue }
    const taken = { name: file.name, size: file.size, kind: kind_of(file.name, bytes), bytes, checksum: await checksum_of(bytes) }
    const same = files.findIndex(other => other.name === file.name)
    if (same < 0) files.push(taken)
    else files[same] = taken
  }
  show_files()
}

// the published checksums, as pairs of a checksum and a name
function published() {
  const file = of_kind("checksums")
  return file ? text_of(file.bytes).split("\n").filter(line => /^[0-9a-f]{64} [ *]./.test(line)).map(line => [line.slice(0, 64), line.slice(66)]) : null
}
function is_published(file, pairs) {
  if (!pairs || !file.checksum || file.kind === "checksums" || file.kind === "other") return ""
  const pair = pairs.find(([checksum]) => checksum === file.checksum)
  return pair ? element("span", { class: "good" }, `It is the published ${pair[1]}. `) : element("span", { class: "bad" }, "It is none of the published files: no line of the checksums is its own. ")
}

function file_item(file, pairs) {
  const kind = element("select", { "aria-label": `Kind of ${file.name}` })
  for (const [value, label] of Object.entries(KINDS)) kind.append(element("option", { value, ...(value === file.kind ? { selected: "" } : {}) }, label))
  kind.addEventListener("change", () => { file.kind = kind.value; forget(); show_files() })
  const remove = element("button", { type: "button", class: "small", "aria-label": `Remove ${file.name}` }, "Remove")
  remove.addEventListener("click", () => { files.splice(files.indexOf(file), 1); forget(); show_files(); at("choose").focus() })
  const about = element("div", { class: "about" }, `${grouped(file.size)} bytes. `, is_published(file, pairs), file.checksum ? "SHA-256 " : "This browser computes no checksum.", element("span", { class: "checksum" }, file.checksum))
  return element("li", {}, kind, element("span", { class: "name" }, file.name), remove, about)
}

function show_files() {
  const pairs = published()
  at("files").replaceChildren(...files.map(file => file_item(file, pairs)))
  const plan = planned()
  at("need").textContent = plan.sentence
  at("start").disabled = !plan.command
}

// ---- which test the files are for ----

// the kinds of files of each test, those by which it is known, the command of the checker, and the programs that take larger files
const FORMS = [
  { kinds: ["award", "log", "cert"], of: ["award", "log"], command: () => ["audit", "award", "log", "cert"], what: "the whole auction", others: "cca audit AWARD LOG CERT or tools/audit AWARD LOG CERT" },
  {
    kinds: ["book", "cert"], of: ["book", "weights"], what: "the book", others: "cca check BOOK CERT or tools/check BOOK CERT",
    command: () => of_kind("weights") ? ["weigh-check", "book", "weights", "cert"] : ["check", "book", "cert"],
  },
  { kinds: ["slots", "cert"], of: ["slots"], command: () => ["place-check", "slots", "cert"], what: "the slots", others: "cca place-check SLOTS CERT or tools/check-places SLOTS CERT" },
]
const millions = bytes => (bytes / 1e6).toFixed(1)

// the words of the checker's command, or none; and what to say to that
function planned() {
  const twice = Object.keys(KINDS).filter(kind => kind !== "other" && files.filter(file => file.kind === kind).length > 1)
  if (twice.length) return { sentence: `Two files are taken for the same thing: ${listed(files.filter(file => file.kind === twice[0]).map(file => file.name))}. Remove one, or choose another kind for it.` }
  const forms = FORMS.filter(form => form.of.some(of_kind))
  if (forms.length > 1) return { sentence: `These files are of different tests: ${listed(forms.map(form => form.what))}. Remove those of all but one.` }
  if (!forms.length) return { sentence: of_kind("cert") ? "Missing: the award and the log of the auction, or else its book, or its slots." : files.length ? "Missing: an award, a log and a certificate; or a book or slots with a certificate." : "No file is chosen yet." }
  const missing = forms[0].kinds.filter(kind => !of_kind(kind))
  if (missing.length) return { sentence: `Missing: ${listed(missing.map(kind => `the ${KINDS[kind].toLowerCase()}`))}.` }
  const size = of_kind("cert").size
  if (size > TOO_LONG) return { sentence: `The certificate has ${millions(size)} million bytes, and a browser may not have the memory for more than ${millions(TOO_LONG)} million. Run ${forms[0].others} instead.` }
  const long = size > LONG ? ` With a certificate of ${millions(size)} million bytes that takes minutes here and more than a gigabyte of memory. ${forms[0].others} is much faster.` : ""
  return { command: forms[0].command(), sentence: `Ready to test ${forms[0].what}.${long}` }
}

// ---- a yes ----

// the names that an award in its plain spelling, with comments, gives to the tables of a kind
function names_in(table) {
  const names = []
  let inside = ""
  for (const line of text_of(of_kind("award").bytes).split("\n")) {
    const head = line.match(/^\[\[(\w+)\]\]/), name = line.match(/^name = "(\w+)"/)
    if (head) inside = head[1]
    else if (name && inside === table) names.push(name[1])
  }
  return names
}
function names_of(command) {
  if (command === "audit") return { bidders: names_in("bidder"), categories: names_in("category") }
  const text = text_of(of_kind(command === "place-check" ? "slots" : "book").bytes)
  const lots = (text.match(/^supply (.*)$/m) || ["", ""])[1].split(" ").length
  return { bidders: [...text.matchAll(/^bidder (\S+)/gm)].map(found => found[1]), categories: Array.from({ length: lots }, (_, k) => `category ${k + 1}`) }
}

function winners_table(command, lines, { categories }) {
  const placed = command === "place-check"
  const joint = command === "audit" ? "\u00a0x\u00a0" : "\u00a0of\u00a0"
  const won = lots => placed ? `from slot ${lots[0]}` : lots.flatMap((many, c) => many === "0" ? [] : many + joint + categories[c]).join(", ")
  const body = element("tbody"), foot = element("tfoot")
  for (const fields of lines.map(line => line.split(" "))) {
    if (fields[0] === "winner") {
      const [, bid, , vickrey, , pays] = fields.slice(-6)
      const who = element("th", { scope: "row" }, fields[1], " ", element("span", { class: "won" }, won(fields.slice(2, -6))))
      body.append(element("tr", {}, who, ...[pays, vickrey, bid].map(it => element("td", {}, amount(it)))))
    } else if (fields[0] === "revenue") foot.append(element("tr", {}, element("th", { scope: "row" }, "All together"), element("td", {}, amount(fields[1])), element("td", { colspan: 2 })))
  }
  if (!body.children.length) return [paragraph("No bid wins.")]
  const value = lines.map(line => line.match(/^(net|value) (.*)/)).find(found => found)
  const worth = `The winning bids are worth ${amount(value[2])}${placed ? "" : " above the reserves"}.`
  const about = placed ? worth : `Prices are for the whole package, with its reserve. ${worth}`
  return [element("p", { class: "small" }, about), wide("Winners and prices", header([["Winner, and what it won"], ["Pays"], ["Vickrey price"], ["Bid"]]), body, foot), ...(placed ? placements(lines) : [])]
}
function placements(lines) {
  const rows = lines.filter(line => line.startsWith("placed ")).map(line => line.split(" ").slice(1))
  return [element("h3", {}, "Order in the band"), wide("Order in the band", header([["Bidder"], ["First slot"], ["Slots"]]),
    element("tbody", {}, ...rows.map(([name, ...numbers]) => element("tr", {}, element("th", { scope: "row" }, name), ...numbers.map(text => element("td", {}, text))))))]
}
const meaning = command => [element("h3", {}, "What this yes says"), list(SAYS[command]), element("h3", {}, "What it doesn't say"), list(DOESNT_SAY[command])]

function refused_lines(said, { categories }) {
  const replies = said.split("\n").map(line => line.split(" ")).filter(([number, reply]) => /^\d+$/.test(number) && Object.hasOwn(REPLIES, reply))
  if (!replies.length) return paragraph("No line of the log was refused.")
  const logged = text_of(of_kind("log").bytes).split("\n")
  const rows = replies.slice(0, SHOWN).map(([number, reply, ...numbers]) => element("tr", {}, element("td", {}, number), element("td", { class: "left" }, code(logged[number - 1])), element("td", { class: "left" }, REPLIES[reply](numbers, categories, logged[number - 1]))))
  const more = replies.length > SHOWN ? [paragraph(`${grouped(replies.length - SHOWN)} more are not shown; cca auction prints all of them.`)] : []
  return opened(`Refused lines of the log, which changed nothing: ${grouped(replies.length)}`, wide("Refused lines", header([["Line"], ["What came in", "left"], ["Why it was refused", "left"]]), element("tbody", {}, ...rows)), ...more)
}

// ---- a no ----

function no_words(line, { bidders }) {
  const [, test, place] = line.split(" "), number = Number(place), rows = Number((text_of(of_kind("cert").bytes).match(/^rows (\d+)$/m) || [])[1])
  const at_bidder = k => bidders[k - 1] ? `The fault is at bidder ${bidders[k - 1]}.` : ""
  const at_row = k => `The fault is at row ${k} of the certificate.`
  const where = { 2: () => at_bidder(number), 4: () => at_bidder(number), 5: () => at_bidder(number), 6: () => at_row(number),
    7: () => number <= rows ? at_row(number) : at_bidder(number - rows), 8: () => number <= rows ? at_row(number) : at_bidder(number - rows) }[test[1]]
  return [paragraph(`The certificate fails test ${test}. The test asks that ${TESTS[test]}. ${where ? where() : ""}`),
    paragraph("So it doesn't show that winners and prices are right. Either they are wrong, or only the certificate is, or the certificate belongs to other files. Compare the checksums below with the published ones before you say which."),
    element("p", { class: "small" }, `${place} is the place in test ${test}, as docs/CERTIFICATES.md counts places.`)]
}

// ---- no verdict ----

const OTHER_PROGRAMS = () => paragraph("This is no verdict. ", code("tools/audit"), " and ", code("cca audit"), " read every spelling of an award and a log.")

async function refusal_words(ask, text, command) {
  const [, word, what, place] = text.trim().split("\n").pop().split(" ")
  if (word === "limit") return [paragraph(`The files are above a limit of the checker. ${LIMITS[what] ? `What is counted: ${LIMITS[what]}. ` : ""}The count is ${grouped(place)}.`)]
  if (word !== "refused") return [paragraph(`The checker gives no verdict: what was read of the files isn't what they have as bytes.`)]
  if (what === "log" && place) {
    const length = count_lines(of_kind("log").bytes)
    return [paragraph(`The log isn't complete: after its ${grouped(length)} lines the auction is still running. The last close has to end the sealed round.`)]
  }
  if (place) {
    const bytes = of_kind(what).bytes, number = line_of_byte(bytes, Number(place))
    const other = what === "cert" ? ` It may belong to ${command === "audit" ? "another auction" : "another file"}.` : ""
    return [paragraph(`${FULL_NAME[what]} isn't of its form. The first faulty line is line ${grouped(number)}.${other}`), line_shown(bytes, number)]
  }
  if (what === "cert") return [paragraph("The certificate isn't of its form.")]
  const found = await ask(what === "award" ? ["award-line", "award"] : ["log-line", "award", "log"])
  const number = Number(found.text)
  const why = what === "award"
    ? "The award breaks a rule of its form, or isn't in its plain spelling: each setting on a line of its own, as in name = \"a800\", in the order of docs/FORMATS.md. Comments are taken."
    : "The log has a line that states nothing, or isn't in its plain spelling: four fields with commas between them, without quotes, and a line feed after each line. (Windows adds a second character, which is shown as \\r.)"
  return [paragraph(why), ...(number ? [paragraph(`The first such line is line ${grouped(number)}:`), line_shown(of_kind(what).bytes, number)] : []), OTHER_PROGRAMS()]
}

const no_room = fault => [paragraph("The checker has stopped before an answer, so this says nothing about the files. The browser reports: ", code(fault)),
  paragraph("Another browser may have more memory. ", code("cca audit"), ", ", code("tools/audit"), " and ", code("second_proof/audit"), " have no such bound.")]

// ---- what is below each answer ----

function checksums_tested(kinds) {
  const tested = kinds.map(of_kind)
  if (!tested[0].checksum) return paragraph("This browser computes no checksums of files: use sha256sum.")
  const lines = tested.map(file => `${file.checksum}  ${file.name}\n`).join("")
  return element("div", {}, element("h3", {}, "Checksums of the tested files, as sha256sum prints them"), element("pre", {}, code(lines)))
}
function stamp(started) {
  const seconds = ((performance.now() - started) / 1000).toFixed(1)
  return element("p", { class: "small" }, `Tested on ${new Date().toISOString().slice(0, 16).replace("T", " ")} UTC by the clock of this computer, in ${seconds} seconds.`)
}

// ---- the test ----

let checker = null, run = 0, ticking = 0

function forget() {
  run++
  if (checker) checker.end()
  checker = null
  clearInterval(ticking)
  at("verdict").hidden = true
  at("answer").replaceChildren()
  at("stop").hidden = at("print").hidden = true
  at("start").hidden = false
}

const STEPS = { start: "Step 1 of 3: reading the files.", cert: "Step 2 of 3: reading the certificate.", tests: "Step 3 of 3: comparing the files and running the nine tests." }
// Reading a large certificate takes about this part of the whole time, by which the rest is estimated.
const PART_OF_READING = 0.025

function show_progress() {
  const step = element("p", { role: "status" }, STEPS.start), seconds = element("p", { class: "small" }), bar = element("progress", { max: "1", "aria-label": "Progress" })
  at("answer").replaceChildren(step, bar, seconds)
  const started = performance.now()
  let reading = 0, expected = 0
  ticking = setInterval(() => {
    const passed = (performance.now() - started) / 1000
    seconds.textContent = `${Math.floor(passed)} seconds${expected ? `, of about ${Math.ceil(expected / 5) * 5}` : ""}.`
    if (expected) bar.value = Math.min(passed / expected, 0.97)
  }, 500)
  return name => {
    const now = performance.now() / 1000
    step.textContent = STEPS[name]
    if (name === "cert") reading = now
    if (name === "tests" && of_kind("cert").size > LONG) expected = (now - reading) / PART_OF_READING
  }
}

function headline(text, kind) {
  const h = at("verdict")
  h.hidden = false
  h.className = kind
  h.textContent = text
  h.focus()
}

// what to show of an answer: its heading, the kind of heading, and the parts below it
async function shown(ask, command, said) {
  const first = said.fault ? "" : said.text.split("\n")[0]
  if (said.fault) return ["No answer", "no", no_room(said.fault)]
  if (first !== "yes" && !first.startsWith("no ")) return ["No verdict", "no", await refusal_words(ask, said.text, command[0])]
  const names = names_of(command[0])
  const replies = command[0] === "audit" ? await ask(["auction", "award", "log"]) : null
  const refused = replies && !replies.fault ? [refused_lines(replies.text, names)] : []
  if (first !== "yes") return ["No: this certificate doesn't show that the result is right", "no", [...no_words(first, names), ...refused]]
  return [`Yes: ${QUESTION[command[0]]}`, "yes",
    [...winners_table(command[0], said.text.trim().split("\n").slice(1), names), ...meaning(command[0]), ...refused]]
}

async function test() {
  const { command } = planned()
  if (!command) return
  forget()
  const mine = run, started = performance.now(), kinds = command.slice(1)
  at("stop").hidden = false
  at("start").hidden = true
  at("stop").focus()
  checker = start_checker(show_progress())
  const given = Object.fromEntries(kinds.map(kind => [kind, of_kind(kind).bytes]))
  const ask = words => checker ? checker.ask(words, given) : new Promise(() => {})
  const said = await ask(command)
  if (mine !== run) return
  const [text, kind, parts] = await shown(ask, command, said)
  if (mine !== run) return
  clearInterval(ticking)
  if (!said.fault) parts.push(checksums_tested(kinds), closed("The answer as the checker printed it", element("pre", {}, code(said.text))))
  at("answer").replaceChildren(...parts, stamp(started))
  checker.end()
  checker = null
  at("stop").hidden = true
  at("start").hidden = at("print").hidden = false
  headline(text, kind)
}

// ---- what is pressed, chosen and dropped ----

at("form").addEventListener("submit", event => { event.preventDefault(); test() })
at("stop").addEventListener("click", () => { forget(); at("start").focus() })
at("print").addEventListener("click", () => { for (const details of at("answer").querySelectorAll("details")) details.open = true; print() })
// a file that has changed on the disk can be chosen once more
at("choose").addEventListener("click", () => { at("choose").value = "" })
at("choose").addEventListener("change", event => take([...event.target.files]))
for (const name of ["dragover", "drop"]) addEventListener(name, event => { event.preventDefault(); at("drop").classList.toggle("over", name === "dragover") })
addEventListener("dragleave", () => at("drop").classList.remove("over"))
addEventListener("drop", event => take([...event.dataTransfer.files]))
