// What is wrong with how a page looks: a list of sentences. It is run in the page by checks/looks.
(() => {
  const found = [], width = document.documentElement.clientWidth
  const say = text => { if (found.length < 200) found.push(text) }
  const short = text => text.trim().replace(/\s+/g, " ").slice(0, 60)
  // what a browser puts together only when it comes into sight is put together now
  for (const it of document.querySelectorAll(".late")) it.style.contentVisibility = "visible"
  for (const it of document.querySelectorAll("details")) it.open = true
  // a report has its sections in main; other pages are those of a published set, of a study and of the site
  const isReport = Boolean(document.querySelector("main > section[aria-labelledby]"))
  const parts = []
  const walk = document.createTreeWalker(document.body, NodeFilter.SHOW_TEXT)
  while (walk.nextNode()) {
    const node = walk.currentNode, holder = node.parentElement
    if (!node.data.trim() || holder.closest("style, title, desc, script")) continue
    const style = getComputedStyle(holder)
    if (style.visibility === "hidden" || style.display === "none" || getComputedStyle(holder.closest("thead") ?? holder).clipPath !== "none") continue
    const range = document.createRange()
    range.selectNodeContents(node)
    for (const box of range.getClientRects()) if (box.width > 0.5 && box.height > 0.5) parts.push({ node, holder, box, text: short(node.data) })
  }
  const ancestors = it => { const found = []; for (let at = it; at && at !== document.body; at = at.parentElement) found.push(at); return found }
  // a part of the page that scrolls up and down shows its texts one after the other
  const scrolls = it => { const box = it.closest(".scroll.long"); return box && getComputedStyle(box).overflowY !== "visible" ? box : null }

  if (document.scrollingElement.scrollWidth > width + 1) say(`the page is ${document.scrollingElement.scrollWidth} wide, and has room for ${width}`)
  // code and tables of the site move sideways in frames of their own
  const moves = it => !isReport && Boolean(it.closest("pre, table")) && [it.closest("pre"), it.closest("table")].some(at => at && getComputedStyle(at).overflowX === "auto" || at?.firstElementChild && getComputedStyle(at.firstElementChild).overflowX === "auto")
  for (const { box, text, holder } of parts) if (!moves(holder)) if (box.left < -1 || box.right > width + 1) say(`cut at the side: "${text}" in <${holder.tagName.toLowerCase()}>`)
  for (const it of document.querySelectorAll(".scroll")) if (it.scrollWidth > it.clientWidth + 1) say(`a table has ${it.scrollWidth} and room for ${it.clientWidth}: "${short(it.innerText)}"`)
  for (const it of document.querySelectorAll("h1, h2, h3, h4, p, li, dd, dt, figcaption, caption, .card"))
    if (it.scrollWidth > it.clientWidth + 1 && it.clientWidth) say(`overflows: "${short(it.innerText)}"`)
  for (const it of new Set(parts.filter(({ node, holder }) => !holder.closest("svg")).flatMap(({ holder }) => ancestors(holder)))) {
    const style = getComputedStyle(it), hides = way => ["hidden", "clip"].includes(way)
    if (style.clipPath !== "none" || !it.clientWidth) continue
    if (hides(style.overflowX) && it.scrollWidth > it.clientWidth + 1 || hides(style.overflowY) && it.scrollHeight > it.clientHeight + 1) say(`cut: "${short(it.innerText)}" in <${it.tagName.toLowerCase()}>`)
  }
  for (const svg of document.querySelectorAll("svg")) {
    const frame = svg.getBoundingClientRect()
    for (const it of svg.querySelectorAll("text")) {
      const box = it.getBoundingClientRect()
      if (box.left < frame.left - 1.5 || box.right > frame.right + 1.5 || box.top < frame.top - 1.5 || box.bottom > frame.bottom + 1.5) say(`cut in a picture: "${short(it.textContent)}"`)
    }
    const sizes = [...svg.querySelectorAll("text")].map(it => parseFloat(getComputedStyle(it).fontSize) * it.getScreenCTM().a)
    if (sizes.some(size => size < 10.95)) say(`letters of ${Math.min(...sizes).toFixed(1)} in a picture: "${short(svg.querySelector("title")?.textContent ?? "")}"`)
    crossed(svg)
    scales(svg)
  }
  // words of a table that take lines though the gaps between its columns have room for them on one
  for (const table of document.querySelectorAll("figure table")) {
    const rows = [...table.rows].slice(0, 20), box = table.closest(".scroll")
    if (!box || getComputedStyle(table).display !== "table" || rows.length < 2) continue
    const range = document.createRange(), columns = [...rows[0].cells].keys()
    const content = it => { range.selectNodeContents(it); return range.getBoundingClientRect() }
    const wide = it => Math.max(...(it.children.length ? [...it.children] : [it]).map(at => content(at).width))
    const wraps = it => it.matches("td.words") && [...it.querySelectorAll(":scope > span")].some(at => content(at).height > 2.2 * parseFloat(getComputedStyle(at).lineHeight))
    const wrapped = rows.flatMap(row => [...row.cells]).filter(wraps)
    if (!wrapped.length) continue
    const spans = wrapped.flatMap(it => [...it.querySelectorAll(":scope > span")])
    for (const it of spans) it.style.whiteSpace = "nowrap"
    const needed = [...columns].reduce((sum, i) => sum + Math.max(...rows.map(row => row.cells[i]).filter(Boolean).map(wide)) + 12, -12)
    for (const it of spans) it.style.whiteSpace = ""
    if (needed < box.clientWidth) say(`a cell takes lines, and there is room: "${short(wrapped[0].innerText)}"`)
  }
  // a size or an item such as 2.6 GHz, 2 x 5 or 2 x a800 that a line breaks can be read as two
  for (const { node, holder } of parts) for (const size of holder.closest("svg") ? [] : node.data.matchAll(/\d(?:\s[kMG]Hz\b|\sx\s[\w.]+|\slots?(?=\sof\b))/g)) {
    const range = document.createRange()
    range.setStart(node, size.index)
    range.setEnd(node, size.index + size[0].length)
    if (new Set([...range.getClientRects()].map(it => Math.round(it.top))).size > 1) say(`a line breaks "${size[0]}" of "${short(node.data)}"`)
  }
  // a word of code that a line breaks after a hyphen can be read as two, and a short word of a table as none
  const broken = (node, words) => [...node.data.matchAll(words)].find(word => {
    const range = document.createRange()
    range.setStart(node, word.index)
    range.setEnd(node, word.index + word[0].length)
    return new Set([...range.getClientRects()].map(it => Math.round(it.top))).size > 1
  })
  for (const { node, holder } of isReport ? [] : parts) {
    const word = holder.closest("code") && !holder.closest("pre") && broken(node, /(?<!\S)(?=\S{2,24}(?!\S))\S*-\S*/g) || holder.closest("td, th") && broken(node, /\b[A-Za-z]{2,12}\b/g)
    if (word) say(`a line breaks the word "${word[0]}" of "${short(node.data)}"`)
  }
  for (const it of document.querySelectorAll(".details th")) if (getComputedStyle(it, "::before").content.includes("Line")) say(`a head of details is called a line: "${short(it.innerText)}"`)

  // lots of one category are equally wide, and all lots where the page says so, or as wide as their MHz; the axes of the core have one scale
  function scales(svg) {
    const widths = new Map()
    for (const it of svg.querySelectorAll("rect")) {
      const lot = /lots? of (.+)$/.exec(it.querySelector("title")?.textContent ?? "")
      if (lot) widths.set(lot[1], [...(widths.get(lot[1]) ?? []), it.getBoundingClientRect().width])
    }
    const differ = all => Math.max(...all) > 1.02 * Math.min(...all) + 0.5
    const plain = it => it.textContent.replace(/\s+/g, " "), onScreen = svg.getScreenCTM()
    for (const [name, all] of widths) if (differ(all)) say(`lots of ${name} differ in width`)
    const isAlike = /all are equally wide/.test(svg.closest(".card")?.textContent ?? "")
    if (isAlike && widths.size && differ([...widths.values()].flat())) say("lots of two categories differ in width")
    if (/as wide as its MHz/.test(svg.closest(".card")?.textContent ?? "")) {
      const mhz = new Map([...plain(document.body).matchAll(/A lot of (.+?) is ([\d.]+) MHz wide/g)].map(([, name, wide]) => [name, Number(wide)]))
      const each = [...widths].map(([name, all]) => all[0] / mhz.get(plain({ textContent: name })))
      if (each.some(isNaN)) say("lots are as wide as their MHz, and the page doesn't say of each how wide that is")
      else if (differ(each)) say("lots aren't as wide as their MHz")
    }
    if (!/^core/.test(svg.querySelector("title")?.id ?? "")) return
    const units = [["x1", "y1", "y2", onScreen.a], ["y1", "x1", "x2", onScreen.d]].map(([at, from, to, scale]) => {
      const found = []
      for (const line of svg.querySelectorAll("line")) {
        const text = line.nextElementSibling, value = text?.tagName === "text" ? parseFloat(text.textContent.replace(/,/g, "")) : NaN
        if (Math.abs(Math.abs(line.getAttribute(from) - line.getAttribute(to)) - 4) < 0.1 && !isNaN(value)) found.push([Number(line.getAttribute(at)) * scale, value])
      }
      return found.length < 2 ? null : Math.abs((found[1][0] - found[0][0]) / (found[1][1] - found[0][1]))
    })
    if (units.every(Boolean) && Math.abs(units[0] / units[1] - 1) > 0.02) say(`axes differ: ${units.map(it => it.toFixed(3)).join(" and ")} a unit`)
    const outline = [...svg.querySelectorAll("path")].find(it => it.querySelector("title")?.textContent.startsWith("all ways"))
    if (outline) {
      const at = outline.getAttribute("d").match(/-?[\d.]+/g).map(Number), corners = [0, 2, 4].map(i => [at[i] * onScreen.a, at[i + 1] * onScreen.d])
      if (differ(corners.map(([x, y], i) => Math.hypot(x - corners[(i + 1) % 3][0], y - corners[(i + 1) % 3][1])))) say("the sides of the triangle differ")
    }
  }

  // texts of a picture that a line goes through, but for those with an edge in the colour of their ground
  function crossed(svg) {
    const lines = [...svg.querySelectorAll("path, line")].filter(it => !it.closest("defs") && getComputedStyle(it).stroke !== "none" && (it.tagName === "line" || getComputedStyle(it).fill === "none"))
    for (const text of svg.querySelectorAll("text")) {
      if (getComputedStyle(text).stroke !== "none") continue
      const box = text.getBoundingClientRect(), low = box.top + box.height / 4, high = box.bottom - box.height / 4
      const isIn = ({ x, y }) => x > box.left + 1 && x < box.right - 1 && y > low && y < high
      for (const line of lines) {
        const other = line.getBoundingClientRect(), edge = parseFloat(getComputedStyle(line).strokeWidth) / 2
        if (other.right + edge < box.left || other.left - edge > box.right || other.bottom + edge < low || other.top - edge > high) continue
        const length = line.getTotalLength(), places = [...Array(401).keys()].map(i => line.getPointAtLength(length * i / 400).matrixTransform(line.getScreenCTM()))
        if (places.filter(isIn).length > 1) { say(`a line crosses "${short(text.textContent)}"`); break }
      }
    }
  }

  // texts that lie over each other: parts sorted from above, each compared with those that begin before it ends
  const sorted = parts.filter(({ holder }) => !scrolls(holder) && !moves(holder)).sort((a, b) => a.box.top - b.box.top)
  const open = []
  for (const part of sorted) {
    for (let i = open.length; i--;) if (open[i].box.bottom <= part.box.top + 1) open.splice(i, 1)
    for (const other of open) {
      const wide = Math.min(part.box.right, other.box.right) - Math.max(part.box.left, other.box.left)
      const high = Math.min(part.box.bottom, other.box.bottom) - Math.max(part.box.top, other.box.top)
      if (wide > 1.5 && high > 0.3 * Math.min(part.box.height, other.box.height) && part.node !== other.node) say(`"${part.text}" lies over "${other.text}"`)
    }
    open.push(part)
  }

  for (const mark of document.querySelectorAll(".legend i")) {
    const box = mark.getBoundingClientRect(), range = document.createRange()
    range.selectNodeContents(mark.nextSibling)
    for (const text of range.getClientRects()) if (box.right > text.left + 1 && box.left < text.right && box.bottom > text.top && box.top < text.bottom) say(`a mark lies over "${short(mark.nextSibling.data)}"`)
  }
  const onlyPictures = document.documentElement.dataset.only === "pictures"
  for (const svg of document.querySelectorAll("svg")) if (!svg.querySelector("title")?.textContent || !svg.querySelector("desc")?.textContent || svg.getAttribute("role") !== "img") say("a picture without its title or description")
  for (const it of document.querySelectorAll("figure")) {
    const table = document.getElementById(it.getAttribute("aria-describedby") ?? "")
    if (!table || !table.querySelector("tbody tr") || !table.caption?.innerText.trim()) say(`a picture without its table: "${short(it.innerText)}"`)
    if (!it.querySelector("figcaption")?.innerText.trim()) say("a figure without words")
  }
  for (const it of document.querySelectorAll("table")) {
    if (!it.checkVisibility()) continue
    const rows = [...it.tBodies].flatMap(body => [...body.rows]).filter(row => row.innerText.trim()), first = it.tHead?.rows[0] ?? rows.find(row => [...row.cells].every(cell => cell.tagName === "TH"))
    const heads = first?.cells[0].checkVisibility() ? first : null
    const wide = row => [...row.cells].reduce((sum, cell) => sum + cell.colSpan, 0), name = short(it.caption?.innerText || it.innerText)
    // a table of two columns may have its heads before its rows
    if (!heads) { if (!rows.every(row => row.cells.length === 2 && row.cells[0].tagName === "TH")) say(`a table without heads: "${name}"`); continue }
    if ([...heads.cells].slice(1).some(cell => !cell.textContent.trim())) say(`a column without a head: "${name}"`)
    if (rows.some(row => wide(row) > wide(heads))) say(`more columns than heads: "${name}"`)
    if (it.tHead && getComputedStyle(it.tHead).clipPath !== "none" && [...it.classList].some(kind => /^stack/.test(kind))) for (const row of rows) for (const cell of row.querySelectorAll("td")) if (cell.closest("table") === it && cell.innerText.trim() && ["none", "normal", '""'].includes(getComputedStyle(cell, "::before").content)) say(`a cell without its head: "${short(cell.innerText)}" of "${name}"`)
  }
  if (isReport && document.querySelectorAll("svg").length !== document.querySelectorAll("figure").length) say("a picture outside a figure")
  const ids = [...document.querySelectorAll("[id]")].map(it => it.id)
  for (const id of new Set(ids.filter((id, i) => ids.indexOf(id) !== i))) say(`two parts are called ${id}`)
  if (isReport) for (const it of document.querySelectorAll("script, link, img, iframe, object, embed")) say(`<${it.tagName.toLowerCase()}> has no place in a report`)
  for (const it of document.querySelectorAll("*")) for (const { name, value } of it.attributes) if (/^(https?:)?\/\//.test(value) && !name.startsWith("xmlns") && it.tagName !== "A" && it.rel !== "canonical") say(`${name}="${value}" needs a network`)

  // contrast: the colour of each text against what lies under it
  const colour = text => { const [r, g, b, a = 1] = (text.match(/[\d.]+/g) ?? [0, 0, 0, 0]).map(Number); return [r, g, b, a] }
  const over = (above, below) => above.slice(0, 3).map((part, i) => above[3] * part + (1 - above[3]) * below[i]).concat(1)
  const light = ([r, g, b]) => { const [x, y, z] = [r, g, b].map(part => part / 255).map(part => part <= 0.04045 ? part / 12.92 : ((part + 0.055) / 1.055) ** 2.4); return 0.2126 * x + 0.7152 * y + 0.0722 * z }
  const contrast = (one, other) => { const [a, b] = [light(one), light(other)].sort((a, b) => b - a); return (a + 0.05) / (b + 0.05) }
  const grounds = new Map([[null, { below: [255, 255, 255, 1], opacity: 1 }]])
  const standing = it => {
    if (!grounds.has(it)) {
      const style = getComputedStyle(it), { below, opacity } = standing(it.parentElement), all = opacity * style.opacity, [r, g, b, a] = colour(style.backgroundColor)
      grounds.set(it, { below: over([r, g, b, a * all], below), opacity: all })
    }
    return grounds.get(it)
  }
  const ground = it => standing(it).below
  const seenAs = (it, [r, g, b, a], more = 1) => [r, g, b, a * more * standing(it).opacity]
  const under = (it, box) => {
    const svg = it.closest("svg"), x = box.left + box.width / 2, y = box.top + box.height / 2
    let below = ground(svg)
    const shapes = document.elementsFromPoint(x, y).filter(at => svg.contains(at) && ["path", "rect", "circle", "polygon"].includes(at.tagName)).reverse()
    for (const at of shapes) {
      const style = getComputedStyle(at)
      if (style.fill === "none" || style.fill.startsWith("url")) continue
      const fill = colour(style.fill)
      below = over([...fill.slice(0, 3), fill[3] * style.fillOpacity * style.opacity], below)
    }
    return below
  }
  const seen = new Set()
  for (const { holder, box, text } of parts) {
    const style = getComputedStyle(holder), svg = holder.closest("svg")
    if (svg) { if (seen.size > 4000) continue; holder.scrollIntoView({ block: "center" }) }
    const key = svg ? holder : [style.color, style.fontSize, holder.className, holder.tagName, ground(holder), standing(holder).opacity].join()
    if (seen.has(key)) continue
    seen.add(key)
    const at = svg ? holder.getBoundingClientRect() : box
    const below = svg ? under(holder, at) : ground(holder), above = svg ? seenAs(holder, colour(style.fill), style.fillOpacity) : seenAs(holder, colour(style.color))
    const ratio = contrast(over(above, below), below)
    if (ratio < 4.5) say(`contrast ${ratio.toFixed(1)}: "${text}"`)
    if (!svg && parseFloat(style.fontSize) < 11 && !matchMedia("print").matches) say(`letters of ${style.fontSize}: "${text}"`)
  }
  for (const it of document.querySelectorAll("svg rect")) {
    const style = getComputedStyle(it)
    if (!/wins .* lots? of /.test(it.querySelector("title")?.textContent ?? "") || style.fill.startsWith("url")) continue
    const below = ground(it.closest("svg")), ratio = contrast(over(seenAs(it, colour(style.fill), style.fillOpacity), below), below)
    if (ratio < 1.2) say(`a lot that is sold looks empty, with a contrast of ${ratio.toFixed(2)}: "${it.querySelector("title").textContent}"`)
  }
  scrollTo(0, 0)
  return found
})()
