// The yardstick of http.sh: node's own HTTP parser, the one behind its http server.
//
//   node http_yardstick.js stream <count>            writes a stream of so many requests
//   node http_yardstick.js parse <piece> < stream    prints the requests parsed and the seconds that it took, from the
//                                                    first read to the last request, without node's own start

'use strict';

const fs = require('fs');
const { HTTPParser } = require('_http_common');

const READ = 65536;

function writeStream(count) {
  const body = 'e'.repeat(641);
  const request = Buffer.from(
    'POST /satp HTTP/1.1\r\nHost: 127.0.0.1:7002\r\nContent-Type: application/jose\r\n' +
      `Content-Length: ${body.length}\r\n\r\n${body}`,
  );
  const block = Buffer.concat(Array(Math.min(count, 100)).fill(request));
  for (let left = count; left > 0; left -= 100) {
    fs.writeSync(1, left < 100 ? block.subarray(0, left * request.length) : block);
  }
}

function parseStream(piece) {
  const parser = new HTTPParser();
  parser.initialize(HTTPParser.REQUEST, {});
  let count = 0;
  let bytes = 0;
  parser[HTTPParser.kOnHeaders | 0] = () => {};
  parser[HTTPParser.kOnHeadersComplete | 0] = () => 0;
  parser[HTTPParser.kOnBody | 0] = (part) => {
    bytes += part.length;
  };
  parser[HTTPParser.kOnMessageComplete | 0] = () => {
    count += 1;
  };
  const held = Buffer.allocUnsafe(READ);
  const begin = process.hrtime.bigint();
  for (;;) {
    const length = fs.readSync(0, held, 0, READ, null);
    if (length === 0) break;
    for (let at = 0; at < length; at += piece) {
      const result = parser.execute(held.subarray(at, Math.min(at + piece, length)));
      if (result instanceof Error) throw result;
    }
  }
  const seconds = Number(process.hrtime.bigint() - begin) / 1e9;
  console.log(`${count} ${seconds}`);
}

const [mode, number] = process.argv.slice(2);
if (mode === 'stream') writeStream(Number(number));
else if (mode === 'parse') parseStream(Number(number));
else process.exit(2);
