"use strict"
const find = id => document.getElementById(id)
const make = (kind, text, ...inside) => {
  const it = document.createElement(kind)
  if (text !== undefined) it.textContent = text
  it.append(...inside)
  return it
}

const option = name => Object.assign(make("option", name), { value: name })

let procedures = [], layout = { tables: [], codes: {} }, pair = null, unsettled = null, next = "0", ordersShown = ""

async function asked(path, body) {
  const headers = {}
  if (find("token").value) headers.Authorization = "Bearer " + find("token").value
  if (body) headers["Content-Type"] = "application/json"
  const answer = await fetch(path, body ? { method: "POST", headers, body: JSON.stringify(body) } : { headers })
  const found = await answer.json()
  return { ok: answer.ok, status: answer.status, ...found }
}

// ---- now

const shown = [
  ["position", "position"], ["end of the order", "end"], ["number of the order", "order"], ["committed in the order", "committed"],
  ["refused in the order", "refused"], ["nothing in the order", "nothing"], ["waiting requests", "waiting"],
  ["engine restarts", "engine_restarts"], ["database", "database"],
]
const samples = []

function stateOf(it) {
  if (it.silent) return ["answers nobody: other servers came to other answers", "bad"]
  if (!it.caught_up) return ["catching up", "wait"]
  if (!it.order_reached) return ["the order can't be reached: calls that write wait", "bad"]
  if (it.diverged) return ["ready; another server came to other answers", "wait"]
  return ["ready", "good"]
}

function draw(committed) {
  samples.push({ at: performance.now(), committed })
  if (samples.length > 121) samples.shift()
  const rates = samples.slice(1).map((it, at) => Math.max(0, 1000 * (it.committed - samples[at].committed) / (it.at - samples[at].at)))
  const most = Math.max(1, ...rates)
  find("line").setAttribute("points", rates.map((it, at) => `${(at + 120 - rates.length) * 5},${78 - 74 * it / most}`).join(" "))
  find("per-second").textContent = rates.length ? Math.round(rates[rates.length - 1]).toLocaleString("en") : "0"
}

function showOrders(orders) {
  if (JSON.stringify(orders) === ordersShown) return
  ordersShown = JSON.stringify(orders)
  const first = it => String(BigInt(it.before) + 1n)
  find("orders").replaceChildren(
    make("tr", undefined, ...["order", "first position", "last position"].map(one => make("th", one))),
    ...orders.map(it => make("tr", undefined, make("td", it.order), make("td", first(it)), make("td", it.end || "goes on"))).reverse())
}

async function look() {
  const state = find("state")
  try {
    const it = await asked("v1/status")
    const [text, kind] = stateOf(it)
    state.textContent = text
    state.className = "state " + kind
    find("server").textContent = it.server || ""
    find("now").replaceChildren(...shown.map(([name, field]) => make("div", undefined, make("dt", name), make("dd", it[field]))))
    showOrders(it.orders || [])
    draw(Number(it.committed))
  } catch (fault) {
    state.textContent = "no answer"
    state.className = "state bad"
  }
}

// ---- calls

function showFields() {
  const chosen = procedures.find(it => it.name === find("procedure").value)
  const inputs = (chosen && chosen.fields ? chosen.fields : chosen && chosen.length ? [{ name: "", type: `${chosen.length} bytes in hex` }] : [])
  find("fields").replaceChildren(...inputs.map(it => {
    const input = make("input")
    input.dataset.field = it.name
    input.placeholder = it.type
    input.size = it.name ? 14 : 40
    return make("label", it.name || "arguments", input)
  }))
}

function argsOf() {
  const inputs = [...find("fields").querySelectorAll("input")]
  if (inputs.length === 1 && !inputs[0].dataset.field) return inputs[0].value
  return Object.fromEntries(inputs.map(it => [it.dataset.field, it.value]))
}

const isSessionOver = it => it.rule === "P15"
const isSettled = it => it.ok || [409, 422, 400, 403].includes(it.status) && !/^(late|refused P9)/.test(it.answer || "")

function tell(name, it) {
  const words = { committed: `committed ${it.position}, reply ${it.reply}`, read: `read ${it.position}, reply ${it.reply}`, cancelled: `cancelled: ${it.name}` }
  const said = it.ok ? words[it.answer] || JSON.stringify(it) : `${it.title}${it.answer ? ` (${it.answer})` : ""}${it.detail ? ": " + it.detail : ""}`
  const line = make("li", `${name}: ${said}`)
  line.className = it.ok && it.answer !== "cancelled" ? "good" : "bad"
  find("answers").prepend(line)
  while (find("answers").children.length > 50) find("answers").lastChild.remove()
}

// asks the call that isn't settled, which may end its session
async function ask(more) {
  const answer = await asked("v1/call/" + unsettled.name, { ...unsettled.body, ...more })
  if (isSettled(answer)) unsettled = null
  if (isSessionOver(answer)) pair = null
  return answer
}

// settles an earlier call; returns whether the call that is asked for is still to be made
async function settle(name) {
  const earlier = unsettled
  const same = earlier.name === name && JSON.stringify(earlier.body.args) === JSON.stringify(argsOf())
  const answer = await ask({ fresh: true })
  if (isSessionOver(answer)) answer.detail = "it may have been done before; a new session begins with the next call"
  tell((same ? "" : "earlier ") + earlier.name, answer)
  return !unsettled && !same
}

// asks a call for the first time; returns what was answered, and by what
async function askFirst(name) {
  if (!pair) {
    const begun = await asked("v1/sessions", {})
    if (!begun.ok) return ["session", begun]
    pair = { session: begun.session, sequence: 0 }
  }
  pair.sequence += 1
  unsettled = { name, body: { args: argsOf(), session: pair.session, sequence: String(pair.sequence), fresh: find("fresh").checked } }
  return [name, await ask()]
}

async function call(event) {
  event.preventDefault()
  const name = find("procedure").value
  try {
    if (unsettled && !await settle(name)) return look()
    let [of, answer] = await askFirst(name)
    if (isSessionOver(answer)) [of, answer] = await askFirst(name) // the call wasn't done, and is asked in another session
    tell(of, answer)
  } catch (fault) {
    tell(name, { title: "no answer", detail: "the next call asks what became of this one" })
  }
  look()
}

// ---- rows

async function scan(from) {
  const table = layout.tables.length ? find("table").value : find("table-number").value
  const it = await asked(`v1/tables/${encodeURIComponent(table)}/rows?from=${encodeURIComponent(from)}&limit=50`)
  if (!it.ok) {
    find("rows-said").textContent = `${it.title}${it.detail ? ": " + it.detail : ""}`
    find("rows").replaceChildren()
    return
  }
  const known = layout.tables.find(one => one.name === table)
  const names = known ? known.fields.map(one => one.name) : ["row"]
  find("rows").replaceChildren(
    make("tr", undefined, make("th", "key"), ...names.map(one => make("th", one))),
    ...it.rows.map(row => make("tr", undefined, make("td", row.key), ...(known ? names.map(one => make("td", row.fields[one])) : [make("td", row.row)]))))
  find("rows-said").textContent = it.rows.length ? `after position ${it.position}` : `no rows, after position ${it.position}`
  find("next").disabled = it.rows.length < 50
  if (it.rows.length) next = String(BigInt(it.rows[it.rows.length - 1].key) + 1n)
}

// ---- the page

async function begin() {
  const found = await asked("v1/procedures")
  procedures = found.procedures || []
  find("procedure").replaceChildren(...procedures.map(it => option(it.name)))
  const known = await asked("v1/layout")
  if (known.ok) layout = { tables: known.tables || [], codes: known.codes || {} }
  find("table").replaceChildren(...layout.tables.map(it => option(it.name)))
  find("table").hidden = !layout.tables.length
  find("table-number").hidden = !!layout.tables.length
  showFields()
}

find("procedure").addEventListener("change", showFields)
find("call").addEventListener("submit", call)
find("scan").addEventListener("submit", event => { event.preventDefault(); scan(find("from").value) })
find("next").addEventListener("click", () => scan(next))
begin()
look()
setInterval(look, 1000)
