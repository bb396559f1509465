#!/usr/bin/env node
// A runtime for a function of your own in Node: it calls that with each event, and answers with its result or with its error.
//
// Usage: function.js PORT FOLDER HANDLER    The handler app.main is the export `main` of app.js, app.mjs or app.cjs in FOLDER,
// src/app.main that of src/app. It is called with the event, a context and a callback, as by AWS Lambda: its result is that of the
// promise that it returns, or what it tells the callback. What it prints is on its standard output and error. Without words
// AWS_LAMBDA_RUNTIME_API, LAMBDA_TASK_ROOT and _HANDLER say the same, the first as HOST:PORT. It ends where its broker goes, and
// behind an error that nobody caught, which is the event's: a supervisor starts it again.
//
// A result without JSON, as a BigInt, or with half of a surrogate pair is an error, Runtime.MarshalError.
"use strict";
const fs = require("fs");
const http = require("http");
const path = require("path");
const url = require("url");

const API = "/2018-06-01/runtime/invocation";
const TRACE = "_X_AMZN_TRACE_ID";
const ENDINGS = [".js", ".mjs", ".cjs"];
const TOO_LARGE = 413;
// Half of a surrogate pair, as JSON.stringify spells it: no JSON of UTF-8 has one.
const HALF = /(?<!\\)((?:\\\\)*)\\ud[89a-f][0-9a-f]{2}/g;

function fail(text) {
  console.error(text);
  process.exit(1);
}

// A request on a connection of its own: an open one would keep the process from being idle.
function ask(address, method, at, body) {
  return new Promise((resolve, reject) => {
    const options = { host: address.host, port: address.port, method, path: `${API}/${at}`, agent: false };
    if (body !== undefined) options.headers = { "Content-Type": "application/json", "Content-Length": Buffer.byteLength(body) };
    const request = http.request(options, (reply) => {
      const pieces = [];
      reply.on("data", (piece) => pieces.push(piece));
      reply.on("error", reject);
      reply.on("aborted", () => reject(new Error("the reply broke off")));
      reply.on("end", () => resolve({ status: reply.statusCode, headers: reply.headers, body: Buffer.concat(pieces).toString() }));
    });
    request.on("error", reject);
    request.end(body);
  });
}

// What a handler is told beside the event. What AWS tells by variables is undefined where these are not set, but for the name,
// which stands in the ARN.
function contextOf(headers, answer) {
  const deadline = Number(headers["lambda-runtime-deadline-ms"]);
  const arn = headers["lambda-runtime-invoked-function-arn"];
  const read = (name) => (headers[name] ? JSON.parse(headers[name]) : undefined);
  return {
    callbackWaitsForEmptyEventLoop: true,
    functionName: process.env.AWS_LAMBDA_FUNCTION_NAME || arn.split(":")[6],
    functionVersion: process.env.AWS_LAMBDA_FUNCTION_VERSION || "$LATEST",
    memoryLimitInMB: process.env.AWS_LAMBDA_FUNCTION_MEMORY_SIZE,
    logGroupName: process.env.AWS_LAMBDA_LOG_GROUP_NAME,
    logStreamName: process.env.AWS_LAMBDA_LOG_STREAM_NAME,
    invokedFunctionArn: arn,
    awsRequestId: headers["lambda-runtime-aws-request-id"],
    identity: read("lambda-runtime-cognito-identity"),
    clientContext: read("lambda-runtime-client-context"),
    getRemainingTimeInMillis: () => Math.max(0, deadline - Date.now()),
    done: (why, result) => answer(why, result, true),
    succeed: (result) => answer(null, result, true),
    fail: (why) => answer(why === undefined || why === null ? "handled" : why, undefined, true),
  };
}

function moduleAt(place) {
  const found = ENDINGS.map((ending) => place + ending).find((file) => fs.existsSync(file));
  return found && import(url.pathToFileURL(found).href);
}

// The handler of this name.
async function load(folder, name) {
  process.chdir(folder);
  const parts = /^((?:.*\/)?[^./]+)\.(.+)$/.exec(name);
  if (!parts) fail(`Runtime.MalformedHandlerName: Bad handler ${name}: it is told as module.export, as app.main or src/app.main`);
  const loading = moduleAt(path.resolve(parts[1]));
  if (!loading) fail(`Runtime.ImportModuleError: Error: Cannot find module '${parts[1]}': no ${ENDINGS.join(", ")} of it is there`);
  const loaded = await loading;
  // Of a CommonJS module Node tells some exports by their names, and all by `default`.
  const find = (from) => parts[2].split(".").reduce((at, part) => (at === undefined || at === null ? undefined : at[part]), from);
  const handler = find(loaded) || find(loaded.default);
  if (!handler) fail(`Runtime.HandlerNotFound: ${name} is undefined or not exported`);
  if (typeof handler !== "function") fail(`Runtime.HandlerNotFound: ${name} is not a function`);
  return handler;
}

function isError(why) {
  return why instanceof Error || (why !== null && typeof why === "object" && typeof why.stack === "string" && "message" in why);
}

function anError(errorType, errorMessage, trace = []) {
  return ["error", JSON.stringify({ errorType, errorMessage, trace }).replace(HALF, "$1\\ufffd")];
}

// An error in AWS's words.
function errorOf(why, type) {
  try {
    if (!isError(why)) return anError(type || typeof why, String(why));
    return anError(type || why.name || "Error", String(why.message), String(why.stack).split("\n"));
  } catch (other) {
    return anError(type || "Error", "its text was not told");
  }
}

// A result as JSON, if it has one.
function marshalled(result) {
  try {
    const text = JSON.stringify(result === undefined ? null : result) || "null";
    if (text.search(HALF) >= 0) throw new Error("half of a surrogate pair is no text");
    return ["response", text];
  } catch (why) {
    console.error(why);
    return anError("Runtime.MarshalError", `Unable to stringify response body: ${why.message}`);
  }
}

function isPromise(made) {
  return Boolean(made) && typeof made.then === "function";
}

// Calls the handler, and waits for its answer: which of both kinds it is, and its text.
function called(handler, event, headers) {
  return new Promise((resolve) => {
    let told = null;
    let made;
    const end = () => {
      process.removeListener("beforeExit", idle);
      setImmediate(resolve, told);
    };
    const answer = (why, result, isLast) => {
      if (told) return;
      const failed = why !== null && why !== undefined;
      if (failed) console.error(why);
      told = failed ? errorOf(why) : marshalled(result);
      // What a callback is told goes once nothing more is under way, unless the handler wants none of that.
      if (isLast || !context.callbackWaitsForEmptyEventLoop) end();
    };
    const rejected = (why) => answer(why === undefined || why === null ? new Error(String(why)) : why, undefined, true);
    // Nothing is under way any more. By AWS a function without a promise has ended then, with null.
    const idle = () => {
      if (!told && isPromise(made)) told = anError("Runtime.NodeJsExit", "a promise was never settled, and nothing more was under way");
      told = told || marshalled(null);
      end();
    };
    process.on("beforeExit", idle);
    const context = contextOf(headers, answer);
    try {
      made = handler(JSON.parse(event), context, (why, result) => answer(why, result, false));
      if (isPromise(made)) made.then((result) => answer(null, result, true), rejected);
    } catch (why) {
      rejected(why);
    }
  });
}

async function serveOne(address, handler, at) {
  const { status, headers, body } = await ask(address, "GET", "next");
  if (status !== 200) fail(`next: ${status} ${body}`);
  at.event = headers["lambda-runtime-aws-request-id"];
  if (headers["lambda-runtime-trace-id"]) process.env[TRACE] = headers["lambda-runtime-trace-id"];
  else delete process.env[TRACE];
  const [kind, text] = await called(handler, body, headers);
  const told = await ask(address, "POST", `${at.event}/${kind}`, text);
  if (told.status === TOO_LARGE) {
    const large = anError("Function.ResponseSizeTooLarge", `an answer of ${Buffer.byteLength(text)} bytes is too large`);
    await ask(address, "POST", `${at.event}/error`, large[1]);
  }
  at.event = null;
}

// An error that nobody caught ends the process, as on AWS. The event that it had is told of it before.
function endBy(address, at, type, status) {
  return async (why) => {
    console.error(why);
    const event = at.event;
    at.event = null;
    if (event) await ask(address, "POST", `${event}/error`, errorOf(why, type)[1]).catch(() => {});
    process.exit(status);
  };
}

async function main() {
  const words = process.argv.slice(2);
  if (words.length !== 0 && words.length !== 3) fail("Usage: function.js PORT FOLDER HANDLER, or none of them: its head says more");
  const env = process.env;
  const [api, folder, name] = words.length ? [`127.0.0.1:${words[0]}`, words[1], words[2]] : [env.AWS_LAMBDA_RUNTIME_API, env.LAMBDA_TASK_ROOT, env._HANDLER];
  if (!api || !folder || !name) fail("AWS_LAMBDA_RUNTIME_API, LAMBDA_TASK_ROOT and _HANDLER are wanted");
  const parts = /^\[?([^\]]+)\]?:(\d+)$/.exec(api);
  const address = { host: parts[1], port: Number(parts[2]) };
  const at = { event: null };
  const handler = await load(folder, name);
  process.on("uncaughtException", endBy(address, at, undefined, 129));
  process.on("unhandledRejection", endBy(address, at, "Runtime.UnhandledPromiseRejection", 128));
  try {
    for (;;) await serveOne(address, handler, at);
  } catch (why) {
    fail(`the broker is gone: ${why.message}`);
  }
}

main().catch((why) => {
  console.error(why);
  process.exit(1);
});
