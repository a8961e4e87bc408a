// Records what node's http.Agent does: node_agent.js PLAN [closes|ages].
//
// One agent keeps the connections of all hosts. All runs in one thread, so that a line is written in the same turn in
// which the agent acts: a start when a request is handed its socket, a return before the agent hears that a socket is
// free, a close before the agent hears of it.
'use strict';
const fs = require('node:fs');
const http = require('node:http');

const LIMITS = { maxSockets: 2, maxTotalSockets: 4, maxFreeSockets: 2 };
const MILLISECONDS = 1000;
// the most seconds that a socket is kept idle, and what the trace says of that: moments are whole seconds
const AGE = 1, AGE_IN_TRACE = 2;
const [, , path, wrong] = process.argv;
const plan = JSON.parse(fs.readFileSync(path, 'utf8'));
const began = process.hrtime.bigint();
const lines = [];
const opened = plan.ports.map(() => 0);
// sockets that were opened and are not closed yet
const open = new Set();

function say(text, options = '') {
  lines.push(`${text} at ${(process.hrtime.bigint() - began) / 1000000000n}${options}`);
}

function hostOf(port) {
  return plan.ports.indexOf(Number(port));
}

function kindInTrace(kind) {
  return kind === 'both' ? 'close' : kind;
}

const aging = wrong === 'ages' ? {} : { timeout: AGE * MILLISECONDS };
const agent = new http.Agent({ keepAlive: true, ...LIMITS, ...aging });

// What a request begins with: it is handed a new socket, or one that is reused.
const onSocket = http.ClientRequest.prototype.onSocket;
http.ClientRequest.prototype.onSocket = function (socket, error) {
  if (socket && !error) {
    start(this, socket);
  }
  return onSocket.call(this, socket, error);
};

function start(request, socket) {
  const { host, number } = request.planned;
  if (socket.named === undefined) {
    socket.named = `${host}.${++opened[host]}`;
    say(`opened ${socket.named} for ${number}`);
    open.add(socket);
    // before the agent's own listener, which makes room
    socket.prependListener('close', () => {
      open.delete(socket);
      say(`closed ${socket.named}`);
    });
  } else {
    say(`leased ${socket.named} to ${number}`);
  }
  socket.holder = request.planned;
  request.planned.isStarted = true;
  setImmediate(rest);
}

// before the agent's own listener, which serves a waiter or keeps the socket
agent.prependListener('free', (socket) => {
  if (socket.holder) {
    const { host, number, kind } = socket.holder;
    say(`back ${number} ${host} ${kindInTrace(kind)}`);
    say(`returned ${socket.named} by ${number}`);
    socket.holder = undefined;
  }
});

const addRequest = agent.addRequest;
agent.addRequest = function (request, ...others) {
  const { host, number } = request.planned;
  say(`get ${number} ${host} 0`, ` age ${AGE_IN_TRACE}`);
  addRequest.call(this, request, ...others);
  if (!request.planned.isStarted) {
    say(`waits ${number} host ${host}`);
  }
};

// A request that forgets that its response said close.
function forgetClose(request) {
  Object.defineProperty(request, 'shouldKeepAlive', { get: () => true, set() {} });
}

// http.request hands the request to the agent at once, so what is planned has to be known by then.
class PlannedRequest extends http.ClientRequest {
  constructor(planned, done) {
    const port = plan.ports[planned.host];
    super({ host: '127.0.0.1', port, path: `/${planned.number}`, agent: new Handing(planned) }, done);
  }
}

// Stands for the agent while a request is made, and tells it what is planned.
class Handing {
  constructor(planned) {
    this.planned = planned;
    this.options = agent.options;
    this.defaultPort = agent.defaultPort;
    this.protocol = agent.protocol;
    this.keepAlive = agent.keepAlive;
    this.maxSockets = agent.maxSockets;
  }

  addRequest(request, ...others) {
    request.planned = this.planned;
    request.agent = agent;
    if (wrong === 'closes') {
      forgetClose(request);
    }
    agent.addRequest(request, ...others);
  }
}

function send(planned) {
  return new Promise((resolve) => {
    const end = () => setImmediate(() => resolve(rest()));
    const request = new PlannedRequest({ ...planned }, (response) => {
      response.resume();
      response.on('close', end);
      response.on('error', end);
    });
    request.on('error', end);
    request.setTimeout(10 * MILLISECONDS, () => request.destroy());
    request.end();
  });
}

// Between two turns the agent is at rest, unless a socket is destroyed and its close yet to come.
function rest() {
  if ([...open].every((socket) => !socket.destroyed && socket.writable)) {
    lines.push('rest');
  }
}

function pause(milliseconds) {
  return new Promise((resolve) => setTimeout(resolve, milliseconds));
}

async function main() {
  for (const [place, batch] of plan.batches.entries()) {
    if (place === plan.batches.length - 1) {
      await pause(plan.pause * MILLISECONDS);
    }
    await Promise.all(batch.map(send));
    // until the sockets of this batch are free or closed
    await pause(100);
    rest();
  }
  const head = [`limits ${LIMITS.maxSockets} ${LIMITS.maxTotalSockets} ${LIMITS.maxFreeSockets * plan.ports.length}`,
    ...plan.ports.map((port) => `site http://127.0.0.1:${port}/`), 'rest'];
  process.stdout.write([...head, ...lines].map((line) => `${line}\n`).join(''));
  agent.destroy();
}

main();
