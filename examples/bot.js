// Plays a student's nodes, without libraries: node bot.js SLIP, or node bot.js PORT NAME KEYFILE NODE,..
// If SLIP is -, the slip is read from the environment's CENDUWA_SLIP. If KEYFILE is -, the key is read from CENDUWA_KEY.
"use strict";
const [fs, net, readline] = [require("fs"), require("net"), require("readline")];

// The denials and refusals that end the bot, each with its exit status and a line. After any other one, the bot looks again.
const STOPS = {
  unknown: [2, "name and key don't match: take both from your slip"],
  "not-owner": [3, "a node isn't yours: take the nodes from your slip"],
  malformed: [3, "the server couldn't read a line as a request: correct the program"],
  full: [6, "nothing is granted any longer: tell your teacher"],
  journal: [6, "nothing is granted any longer: tell your teacher"],
  over: [0, "the run is over"],
};
const LOST = new Error("the connection was lost");
const wait = (seconds) => new Promise((done) => setTimeout(done, 1000 * seconds));

function stop(status, sentence) {
  process.stderr.write(`bot: ${sentence}\n`);
  process.exit(status);
}

// Connects to a port. Returns a function that sends a request and returns the reply.
async function connect(port) {
  const socket = net.connect(port, "127.0.0.1");
  await new Promise((done) => socket.once("connect", done).on("error", done));
  if (socket.connecting || socket.destroyed) throw LOST;
  const input = readline.createInterface({ input: socket });
  const lines = input[Symbol.asyncIterator]();
  socket.on("close", () => input.close());
  return async (request) => {
    socket.write(JSON.stringify(request) + "\n");
    const line = await lines.next().catch(() => ({ done: true })); // The connection may have been reset.
    if (line.done) throw LOST;
    if (!line.value.startsWith("{")) stop(4, `another program uses port ${port}; ask your teacher for the port`);
    const reply = await Promise.resolve(line.value).then(JSON.parse).catch(() => { throw LOST; }); // If the connection was lost, the last line may be incomplete.
    const why = STOPS[reply.deny ?? reply.refuse];
    return why ? stop(...why) : reply;
  };
}

// Looks at a node, and asks for its enabled rule. A marriage is with the first neighbour that points at the node.
async function move(ask, node) {
  const look = await ask({ do: "look", node });
  if (!look.rule || look.chosen) return;
  const request = { do: "move", node, rule: look.rule, at: look.at };
  if (look.rule === "marriage") request.with = look.near.find((near) => near.p === node).node;
  console.log(JSON.stringify(await ask(request)));
}

// Connects, says hello and plays. If no seat is free or the connection is lost, tries again each second for a minute.
async function play(port, name, key, nodes) {
  let wasGreeted = false;
  for (let second = 0; second <= 60; second++, await wait(1)) {
    try {
      const ask = await connect(port);
      const isIn = "ok" in (await ask({ do: "hello", name, key }));
      wasGreeted = wasGreeted || isIn;
      for (; isIn; second = 0, await wait(0.1)) for (const node of nodes) await move(ask, node);
    } catch (error) {
      if (error !== LOST) throw error;
      if (!wasGreeted) stop(4, `no server at port ${port} answers a hello; ask your teacher for the port`);
    }
  }
  stop(...(wasGreeted ? [7, "the connection was lost: start again"] : [5, "all seats were taken for a minute: try again later"]));
}

const words = process.argv.slice(2);
if (words.length !== 1 && words.length !== 4) stop(1, "usage: node bot.js SLIP, or PORT NAME KEYFILE NODE,..");
const isSlip = words.length === 1;
const [file, variable] = isSlip ? [words[0], "CENDUWA_SLIP"] : [words[2], "CENDUWA_KEY"];
const text = file === "-" ? process.env[variable] : fs.existsSync(file) ? fs.readFileSync(file, "utf-8") : undefined;
if (text === undefined) stop(1, file === "-" ? `the environment variable ${variable} isn't set` : `${file} can't be read`);
const after = (word) => new RegExp(`^${word}\\s+(\\S+)\\s*$`, "m").exec(text)?.[1];
const [port, name, nodes] = isSlip ? ["port", "name", "nodes"].map(after) : [words[0], words[1], words[3]];
if (!/^\d{1,5}$/.test(port)) stop(1, `there is no port in ${isSlip ? file : "the arguments"}`);
if (!/^\d+(,\d+)*$/.test(nodes)) stop(1, `there are no nodes in ${isSlip ? file : "the arguments"}`);
play(Number(port), name ?? "", after("key") ?? text.trim(), nodes.split(",").map(Number));
