// A server to compare with: node bench/baseline.js PORT
// It answers each POST by 202 once it has parsed the body as JSON, has found the call's framework in a map, and has noted there whether it is suppressed.
"use strict";
const http = require("http");

const frameworks = new Map([["F1-1", { suppressed: false }]]);

function answer(body, response) {
  let call;
  try {
    call = JSON.parse(body);
  } catch {
    response.writeHead(400, { "Content-Length": 0 }).end();
    return;
  }
  const framework = frameworks.get(call.framework_id?.value);
  if (framework === undefined) {
    response.writeHead(403, { "Content-Length": 0 }).end();
    return;
  }
  framework.suppressed = call.type === "SUPPRESS";
  response.writeHead(202, { "Content-Length": 0 }).end();
}

const server = http.createServer((request, response) => {
  const pieces = [];
  request.on("data", (piece) => pieces.push(piece));
  request.on("end", () => answer(Buffer.concat(pieces), response));
});
server.keepAliveTimeout = 60000;
server.listen(Number(process.argv[2]), "127.0.0.1", () => console.log("serves"));
