// Plays on page.html in a headless Chromium, as four users would, by mouse and keys, and checks what each is shown.
//
// page_test.js [PROGRAM [FOLDER]]: PROGRAM is psd, by default ./psd at the top of the repository. Pictures of what they
// see go to FOLDER, by default a new one among the host's temporary files. Needs Debian's chromium, nodejs and node-ws.
"use strict";
const assert = require("assert");
const { spawn } = require("child_process");
const fs = require("fs");
const http = require("http");
const net = require("net");
const os = require("os");
const path = require("path");
module.paths.push("/usr/share/nodejs");
const WebSocket = require("ws");

const top = path.resolve(__dirname, "../..");
const program = path.resolve(process.argv[2] ?? path.join(top, "psd"));
const folder = path.resolve(process.argv[3] ?? fs.mkdtempSync(path.join(os.tmpdir(), "page_test-")));
const sleep = (ms) => new Promise((done) => setTimeout(done, ms));
const pages = [];
const atEnd = [];

/** Asks again and again until there is an answer. */
async function until(what, question, seconds = 20) {
  for (const end = Date.now() + seconds * 1000; ;) {
    const answer = await question();
    if (answer) return answer;
    if (Date.now() > end) throw new Error(`not within ${seconds} s: ${what}`);
    await sleep(50);
  }
}

/* ---- The servers, and a wire that can be cut ---- */

function freePort() {
  return new Promise((done) => {
    const server = net.createServer().listen(0, "127.0.0.1", () => {
      const { port } = server.address();
      server.close(() => done(port));
    });
  });
}

async function startServer() {
  const port = await freePort();
  const data = ["--dex", `${top}/data/small/dex.json`, "--config", `${top}/data/samples/community.json`];
  const server = spawn(program, ["serve", `127.0.0.1:${port}`, "60", ...data], { stdio: ["ignore", "ignore", "pipe"] });
  atEnd.push(() => server.kill("SIGKILL"));
  let said = "";
  server.stderr.on("data", (bytes) => { said += bytes; });
  const answers = () => new Promise((done) => {
    const socket = net.connect(port, "127.0.0.1", () => { socket.destroy(); done(true); });
    socket.on("error", () => done(false));
  });
  await until("the server listens", async () => {
    assert(server.exitCode === null, `the server ended: ${said}`);
    return said.includes("listening on") || answers();
  }, 7200);
  return { port, server };
}

/** Serves the page by http, as an operator's web server does. */
async function startWeb() {
  const page = fs.readFileSync(path.join(__dirname, "page.html"));
  const web = http.createServer((request, answer) => answer.setHeader("Content-Type", "text/html").end(page));
  await new Promise((done) => web.listen(0, "127.0.0.1", done));
  atEnd.push(() => web.close());
  return web.address().port;
}

/** Passes bytes on to the server. `cut` breaks the client's side alone; the server learns of it by `release`. */
async function startWire(port) {
  const pairs = new Set();
  const wire = net.createServer({ allowHalfOpen: true }, (client) => {
    const server = net.connect(port, "127.0.0.1");
    const pair = { client, server, cut: false };
    pairs.add(pair);
    client.pipe(server, { end: false });
    server.pipe(client);
    for (const socket of [client, server]) socket.on("error", () => {});
    client.on("close", () => pair.cut || server.destroy());
  });
  await new Promise((done) => wire.listen(0, "127.0.0.1", done));
  atEnd.push(() => wire.close());
  return {
    port: wire.address().port,
    cut() { for (const pair of pairs) { pair.cut = true; pair.client.destroy(); } },
    release() { for (const pair of pairs) if (pair.cut) pair.server.destroy(); },
  };
}

/* ---- The browser, over its debugging port ---- */

async function startBrowser() {
  const profile = fs.mkdtempSync(path.join(os.tmpdir(), "page_test-profile-"));
  const words = ["--headless=new", "--no-sandbox", "--disable-gpu", "--disable-dev-shm-usage", "--no-first-run",
    "--host-resolver-rules=MAP page.test 127.0.0.1", "--remote-debugging-port=0", `--user-data-dir=${profile}`];
  const browser = spawn("chromium", words, { stdio: ["ignore", "ignore", "pipe"] });
  let fault;
  browser.on("error", (error) => { fault = error; });
  const ended = new Promise((done) => browser.on("exit", done).on("error", done));
  atEnd.push(() => setTimeout(() => browser.kill("SIGKILL"), 5000) && ended);
  atEnd.push(() => fs.rmSync(profile, { recursive: true, force: true, maxRetries: 10, retryDelay: 200 }));
  let said = "";
  browser.stderr.on("data", (bytes) => { said += bytes; });
  const [, url] = await until("Chromium starts", () => {
    if (fault) throw fault;
    return /DevTools listening on (ws:\S+)/.exec(said);
  }, 60);
  const socket = new WebSocket(url, { perMessageDeflate: false, maxPayload: 1 << 28 });
  await new Promise((done, failed) => socket.on("open", done).on("error", failed));
  const [calls, hears] = [new Map(), new Map()];
  let last = 0;
  socket.on("message", (bytes) => {
    const { id, result, error, method, params, sessionId } = JSON.parse(bytes);
    if (!id) hears.get(sessionId)?.(method, params);
    else if (error) calls.get(id).failed(new Error(error.message));
    else calls.get(id).done(result);
    calls.delete(id);
  });
  const call = (method, params = {}, sessionId = undefined) => new Promise((done, failed) => {
    calls.set(last += 1, { done, failed });
    socket.send(JSON.stringify({ id: last, method, params, sessionId }));
  });
  atEnd.unshift(() => call("Browser.close"));
  return { call, hears };
}

/** What runs in the page: the element that a user means by a label, if it can be seen. */
function findInPage(label) {
  const scope = document.querySelector("dialog[open]") ?? document;
  const named = (element) => [element.getAttribute("aria-label"), element.labels?.[0]?.textContent, element.textContent]
    .some((text) => text?.replace(/\s+/g, " ").trim().startsWith(label));
  return [...scope.querySelectorAll("button, input, select, textarea, [role=tab]")]
    .find((element) => element.checkVisibility() && !element.disabled && named(element));
}

class Page {
  constructor(browser, session, name) {
    Object.assign(this, { browser, session, name, faults: [] });
    browser.hears.set(session, (method, params) => {
      const says = method === "Runtime.consoleAPICalled" && params.type === "error";
      if (says || method === "Runtime.exceptionThrown") this.faults.push(JSON.stringify(params));
    });
  }

  /** A page in a profile of its own, as on another machine. */
  static async open(browser, name, { width = 1180, height = 760, dark = false } = {}) {
    const { browserContextId } = await browser.call("Target.createBrowserContext");
    const { targetId } = await browser.call("Target.createTarget", { url: "about:blank", browserContextId });
    const { sessionId } = await browser.call("Target.attachToTarget", { targetId, flatten: true });
    const page = new Page(browser, sessionId, name);
    pages.push(page);
    for (const domain of ["Page", "Runtime", "Accessibility"]) await page.call(`${domain}.enable`);
    await page.call("Emulation.setFocusEmulationEnabled", { enabled: true });
    const features = [{ name: "prefers-color-scheme", value: dark ? "dark" : "light" }];
    await page.call("Emulation.setEmulatedMedia", { features });
    await page.resize(width, height);
    return page;
  }

  resize(width, height) {
    return this.call("Emulation.setDeviceMetricsOverride", { width, height, deviceScaleFactor: 1, mobile: false });
  }

  call(method, params) {
    return this.browser.call(method, params, this.session);
  }

  /** Calls a function in the page, with arguments that JSON can say. */
  async run(work, ...given) {
    const expression = `{ ${findInPage}; (${work})(...${JSON.stringify(given)}) }`;
    const { result, exceptionDetails } = await this.call("Runtime.evaluate", { expression, returnByValue: true });
    if (exceptionDetails) throw new Error(`${this.name}: ${exceptionDetails.exception?.description}`);
    return result.value;
  }

  until(what, work, ...given) {
    return until(`${this.name}: ${what}`, () => this.run(work, ...given));
  }

  sees(text) {
    return this.until(`sees "${text}"`, (wanted) => document.body?.innerText.includes(wanted), text);
  }

  async goto(address, from = `file://${__dirname}/page.html`) {
    await this.call("Page.navigate", { url: `${from}#${address}` });
    await this.until("has loaded", () => document.readyState === "complete" && document.querySelector("#tabs button"));
  }

  /** Clicks on what has the label with the mouse, in its middle, where nothing may lie above it. */
  async click(label) {
    const at = await this.until(`can click "${label}"`, (wanted) => {
      const element = findInPage(wanted);
      element?.scrollIntoView({ block: "nearest" });
      const box = element?.getBoundingClientRect();
      const point = box && { x: box.x + box.width / 2, y: box.y + box.height / 2 };
      return point && element.contains(document.elementFromPoint(point.x, point.y)) && point;
    }, label);
    const press = { ...at, button: "left", clickCount: 1 };
    await this.call("Input.dispatchMouseEvent", { type: "mousePressed", ...press });
    await this.call("Input.dispatchMouseEvent", { type: "mouseReleased", ...press });
  }

  async type(label, text) {
    await this.click(label);
    await this.run(() => document.activeElement.select?.());
    await this.call("Input.insertText", { text });
  }

  async press(key, code = key, more = {}) {
    await this.call("Input.dispatchKeyEvent", { type: "keyDown", key, code, ...more });
    await this.call("Input.dispatchKeyEvent", { type: "keyUp", key, code, ...more });
  }

  enter() {
    return this.press("Enter", "Enter", { windowsVirtualKeyCode: 13, text: "\r" });
  }

  async say(tab, text) {
    await this.type(`Text for ${tab}`, text);
    await this.enter();
  }

  async shot(name) {
    await this.call("Input.dispatchMouseEvent", { type: "mouseMoved", x: 0, y: 0 });
    await sleep(600);
    const { data } = await this.call("Page.captureScreenshot", { format: "png" });
    fs.writeFileSync(path.join(folder, `${name}.png`), Buffer.from(data, "base64"));
  }

  async closeNotices() {
    while (await this.run(() => document.querySelector(".notice") !== null)) await this.click("Close");
  }

  /** Every field and button that a screen reader meets has a name. */
  async checkNames() {
    const { nodes } = await this.call("Accessibility.getFullAXTree");
    for (const { role, name, ignored } of nodes) {
      const asked = ["button", "textbox", "combobox", "tab", "log", "meter", "dialog"].includes(role?.value);
      assert(ignored || !asked || name?.value, `${this.name}: a ${role?.value} without a name`);
    }
  }

  async logIn(name, secret = "") {
    await this.type("Name", name);
    if (secret) await this.type("Secret", secret);
    await this.click("Log in");
  }

  async useTeam(team) {
    await this.click("Home");
    await this.type("Packed team", team);
    await this.click("Use this team");
    await this.sees("The server has this team.");
  }
}

/* ---- What the users do ---- */

const set = (species, moves, nick = "") => `${nick || species}|${nick && species}|||${moves}|||||||`;
const LAX = set("Snorlax", "bodyslam,rest,earthquake,hyperbeam", "Lax");
const JYNX = set("Jynx", "blizzard,rest");
const ANNS = [LAX, JYNX, set("Tauros", "bodyslam,hyperbeam,blizzard,earthquake")].join("]");
const BOBS = [LAX, JYNX, set("Chansey", "softboiled,blizzard")].join("]");
const MARKUP = '<img src=x onerror="window.hit=1">';

/** Chooses by a click what stands first; answers whether the battle goes on. */
async function playOn(page) {
  const label = await page.run(() => {
    const open = [...document.querySelectorAll(".battle .moves button:enabled, .battle .bench button:enabled")];
    const choice = open.find((button) => button.checkVisibility());
    return document.querySelector(".ask.result") ? "over" : choice?.firstChild.textContent ?? "";
  });
  if (label && label !== "over") await page.click(label);
  return label !== "over";
}

async function talk({ ann, bob, cy, mal }) {
  await ann.click("Lobby");
  await bob.click("Lobby");
  await ann.say("Lobby", "good evening");
  await bob.sees("Ann: good evening");
  await bob.say("Lobby", "hello | Ann");
  await ann.sees("Bob: hello | Ann");
  await cy.click("Lobby");
  await mal.click("Lobby");
  await mal.say("Lobby", MARKUP);
  for (const page of [ann, bob, cy, mal]) await page.sees(MARKUP);
  await ann.click("Cy");
  await ann.shot("user_menu");
  await ann.click("Whisper");
  await ann.say("Cy", "have you seen that?");
  await cy.click("Ann");
  await cy.sees("have you seen that?");
  await ann.click("Lobby");
  await ann.click("<i>Mal</i>");
  await ann.click("Warn");
  await ann.type("Reason", "no markup");
  await ann.shot("reason");
  await ann.enter();
  await mal.sees("Warned: <i>Mal</i> by ~Ann: no markup");
  await ann.click("Staff");
  await ann.click("Announce");
  await ann.type("Announcement", "x|win|Ann");
  await ann.click("OK");
  await cy.click("Lobby");
  await cy.sees("Announcement by ~Ann: x|win|Ann");
  await ann.shot("lobby");
  await bob.shot("lobby_narrow_dark");
}

async function setTeams({ ann, bob }) {
  await ann.click("Home");
  await ann.type("Packed team", "Tauros\n- Body Slam\n- Earthquake");
  await ann.click("Search a match");
  await ann.sees("psd import FILE > TEAM");
  await ann.type("Packed team", ANNS.replace("Jynx||||", "Jynx|||"));
  await ann.click("Use this team");
  await ann.sees("This is no packed team: see byte");
  await ann.shot("bad_team");
  await ann.type("Packed team", set("Tauros", "rest"));
  await ann.click("Search a match");
  await ann.sees("Set 1: rest is a move that it can't learn.");
  await ann.useTeam(ANNS);
  await bob.useTeam(BOBS);
}

async function ratedBattle({ ann, bob, cy }, wire) {
  await ann.click("Search a match");
  await ann.sees("Searching in [Gen 1] OU");
  await ann.shot("home_searching");
  await bob.click("Search a match");
  for (const page of [ann, bob]) await page.sees("Ann vs. Bob");
  await cy.click("Home");
  await cy.type("Room or battle", "battle-gen1ou-1");
  await cy.enter();
  await cy.sees("You are looking on.");
  await ann.sees("What will Lax do?");
  await ann.closeNotices();
  await ann.checkNames();
  await ann.click("Hyper Beam");
  await ann.sees("You chose Hyper Beam. Waiting for Bob");
  await ann.shot("battle_chosen");
  await ann.click("Undo");
  await ann.sees("What will Lax do?");
  await ann.click("Body Slam");
  await bob.click("Body Slam");
  await ann.sees("Lax used Body Slam!");
  await bob.sees("The opposing Lax used Body Slam!");
  await cy.sees("Ann's Lax used Body Slam!");
  await ann.sees("Turn 2");
  await ann.click("Rest");
  await bob.click("Body Slam");
  await ann.sees("Lax is asleep!");
  await cy.say("Ann vs. Bob", "what a start");
  await ann.sees("Cy: what a start");
  await ann.click("Jynx");
  await bob.sees("Turn 3");
  await bob.click("Body Slam");
  await bob.sees("Ann sent out Jynx!");
  await ann.sees("Turn 4");
  await ann.shot("battle");
  await bob.closeNotices();
  await bob.shot("battle_narrow");
  await cy.shot("battle_looking_on");
  await comeBack(bob, ann, wire);
  await until("the battle ends", async () => {
    const on = await playOn(ann);
    return !(await playOn(bob)) && !on;
  }, 300);
  const results = await Promise.all([ann, bob].map((page) => page.until("has a new rating", () => {
    const [text] = /^You won! .*: 1016\.$|^You lost\. .*: 984\.$/.exec(document.querySelector(".ask").innerText) ?? [];
    return text;
  })));
  assert.equal(results.filter((text) => text.startsWith("You won!")).length, 1, results.join());
  await cy.sees(results[0].startsWith("You won!") ? "Ann won." : "Bob won.");
  await ann.shot("battle_over");
  await bob.shot("battle_over_narrow_dark");
  console.log(`the rated battle ends: Ann reads "${results[0]}"`);
}

/** Bob's connection is cut in mid-battle, and the server doesn't know it at first. */
async function comeBack(bob, ann, wire) {
  wire.cut();
  await bob.sees("The connection was lost. Trying again as Bob");
  await bob.shot("lost_narrow_dark");
  await bob.sees("The server still holds the lost connection of Bob.");
  wire.release();
  await bob.sees("You are connected again.");
  await bob.sees("What will Lax do?");
  await bob.click("Lobby");
  await bob.sees("hello | Ann");
  await bob.click("Ann vs. Bob");
  await ann.sees("Bob joined.");
}

/** The nickname of a Pokémon is markup, and everything is done by keys. */
async function markupBattle({ cy, mal }) {
  await mal.useTeam(set("Tauros", "bodyslam", "<img onerror=1>"));
  await cy.useTeam(set("Snorlax", "bodyslam,rest"));
  await mal.type("Opponent", "Cy");
  await mal.click("Challenge");
  await cy.sees("<i>Mal</i> challenges you in [Gen 1] OU.");
  await cy.shot("challenged");
  await cy.click("Accept");
  for (const page of [cy, mal]) await page.sees("<img onerror=1>");
  await cy.until("has the battle's tab in focus", () => document.activeElement.innerText === "<i>Mal</i> vs. Cy");
  await cy.press("ArrowLeft", "ArrowLeft", { windowsVirtualKeyCode: 37 });
  await cy.until("is on the tab before", () => document.activeElement.innerText === "Ann vs. Bob");
  await cy.press("ArrowRight", "ArrowRight", { windowsVirtualKeyCode: 39 });
  await cy.sees("What will Snorlax do?");
  for (let presses = 0; presses < 20; presses += 1) {
    if (await cy.run(() => document.activeElement.closest(".moves"))) break;
    await cy.press("Tab", "Tab", { windowsVirtualKeyCode: 9 });
  }
  await cy.enter();
  await cy.until("has chosen, and may undo", () => document.activeElement.innerText === "Undo");
  await mal.click("Body Slam");
  await cy.sees("The opposing <img onerror=1> used Body Slam!");
  await cy.until("is asked again, at the first move", () => document.activeElement.closest(".moves"));
  await cy.shot("battle_markup");
  await mal.click("Forfeit");
  await mal.click("Forfeit");
  await cy.sees("You won!");
}

async function reload({ ann }) {
  await ann.call("Page.reload");
  await ann.sees("Log in");
  await ann.logIn("Ann", "correct horse");
  await ann.click("Ann vs. Bob");
  await ann.sees("won the battle!");
}

/** Each line of a battle that docs/PROTOCOL.md shows is one that the page can read. */
async function readEveryLine({ ann }) {
  const text = fs.readFileSync(path.join(top, "docs/PROTOCOL.md"), "utf8").replaceAll("\\|", "¦");
  const [, table] = text.split("| event | line | example | who sees it |\n");
  const rows = table.split("\n\n")[0].split("\n").slice(1);
  const examples = rows.map((row) => row.split("|")[3].trim().slice(1, -1).replaceAll("¦", "|"));
  const lines = examples.filter((line) => line.startsWith("|") && !line.startsWith("|request|"));
  assert(lines.length > 40, `${lines.length} lines`);
  const first = ["|init|battle", "|switch|p1a: Tauros|Tauros|353/353", "|switch|p2a: Lax|Snorlax|100/100"];
  const [unknown, ...log] = await ann.run((all) => {
    receive([">battle-test-1", ...all].join("\n"));
    const { log } = rooms.get("battle-test-1");
    const unknown = all.map((line) => line.split("|")[1]).filter((kind) => !(kind in roomLines));
    return [unknown.join(), ...[...log.children].map((line) => line.textContent)];
  }, [...first, ...lines]);
  await ann.run(() => rooms.get("battle-test-1").close());
  assert.equal(unknown, "init,gametype,gen,clearpoke,teampreview,start,upkeep");
  assert(log.length >= lines.length - 7 && !/undefined|NaN/.test(log.join()), log.join("\n"));
}

async function main() {
  const { port, server } = await startServer();
  const wire = await startWire(port);
  const browser = await startBrowser();
  const address = `127.0.0.1:${port}`;
  const ann = await Page.open(browser, "Ann");
  await ann.goto(address);
  await ann.shot("login");
  await ann.logIn("Ann", "wrong");
  await ann.sees("the secret isn't its secret");
  await ann.shot("login_refused");
  await ann.logIn("Ann", "correct horse");
  await ann.sees(`Ann on ${address}`);
  const bob = await Page.open(browser, "Bob", { width: 390, height: 844, dark: true });
  await bob.goto(`127.0.0.1:${wire.port}`);
  await bob.logIn("Bob", "battery staple");
  const cy = await Page.open(browser, "Cy", { width: 800, height: 700 });
  await cy.goto(address, `http://page.test:${await startWeb()}/`);
  await cy.sees("This browser gives the page no SHA-256 here");
  await cy.logIn("Eve", "tin whistle");
  await cy.sees("The browser gives this page no SHA-256, which a secret needs.");
  await cy.shot("login_no_digest");
  await cy.run(() => { document.querySelector("[name=secret]").value = ""; });
  await cy.logIn("Ann");
  await cy.sees("Ann: This name is registered");
  await cy.logIn("Cy");
  const mal = await Page.open(browser, "Mal");
  await mal.goto(address);
  await mal.logIn("<i>Mal</i>");
  const users = { ann, bob, cy, mal };
  console.log("four users are logged in");
  await talk(users);
  console.log("they chat, whisper, warn and announce");
  await setTeams(users);
  await ratedBattle(users, wire);
  await markupBattle(users);
  console.log("a nickname of markup is shown as text; a battle is played by keys");
  await reload(users);
  console.log("a page that is loaded anew finds its rooms");
  await readEveryLine(users);
  console.log("every line of docs/PROTOCOL.md is read");
  for (const page of Object.values(users)) {
    await page.checkNames();
    const made = await page.run(() => [window.hit, document.querySelectorAll("img, i, main script").length].join());
    assert.equal(made, ",0", `${page.name}: markup was read`);
    assert.deepEqual(page.faults, [], page.name);
  }
  server.kill();
  await cy.sees("The connection was lost. Trying again as Cy");
  await cy.click("Stop trying");
  await cy.sees("Log in");
  console.log(`all is well; pictures are in ${folder}`);
}

fs.mkdirSync(folder, { recursive: true });
main().catch(async (error) => {
  console.error(error);
  process.exitCode = 1;
  for (const page of pages) await page.shot(`failed_${page.name.toLowerCase()}`);
  console.error(`pictures are in ${folder}`);
}).finally(async () => {
  for (const work of atEnd) await work();
  process.exit();
});
