// A booking by Node: WAY ORIGIN, with its requests on standard input, a line each: METHOD PATH, and of a POST KEY BODY. Prints the
// status and the body of each answer.
import fs from 'node:fs';
import http from 'node:http';

const [way, origin] = process.argv.slice(2);
const agent = new http.Agent({ keepAlive: true });

// a body that is handed over as a stream has no length, so it comes in chunks
async function byFetch(method, path, headers, body) {
  const streamed = way === 'fetch-stream' && body !== undefined;
  const handed = streamed ? { body: new Blob([body]).stream(), duplex: 'half' } : { body };
  const answer = await fetch(origin + path, { method, headers, ...handed, signal: AbortSignal.timeout(20000) });
  return [answer.status, await answer.text()];
}

// how a body is handed over: whole; by writes without a length, which come in chunks; or once the desk asks for it
function send(request, body) {
  if (body === undefined || way === 'http') {
    request.end(body);
  } else if (way === 'http-write') {
    for (const letter of body) request.write(letter);
    request.end();
  } else {
    request.once('continue', () => request.end(body));
    request.flushHeaders();
  }
}

function byHttp(method, path, headers, body) {
  const asked = way === 'http-continue' && body ? { ...headers, Expect: '100-continue', 'Content-Length': body.length } : headers;
  return new Promise((done, failed) => {
    const request = http.request(origin + path, { method, headers: asked, agent, timeout: 20000 }, (answer) => {
      let text = '';
      answer.setEncoding('utf8');
      answer.on('data', (piece) => { text += piece; });
      answer.on('end', () => done([answer.statusCode, text]));
    });
    request.on('timeout', () => request.destroy(new Error('no answer')));
    request.on('error', failed);
    send(request, way === 'http-continue' && !body ? undefined : body);
  });
}

const ask = way.startsWith('fetch') ? byFetch : byHttp;

for (const line of fs.readFileSync(0, 'utf8').trimEnd().split('\n')) {
  const [method, path, key, body] = line.split(' ');
  const fields = key ? { 'Desk-Agent': 'ann', 'Desk-Key': key } : { 'Desk-Agent': 'ann' };
  console.log(...await ask(method, path, fields, body));
}
agent.destroy();
