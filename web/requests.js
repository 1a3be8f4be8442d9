// Sends a request to the program.

import { jsonIn } from './texts.js';
import { LOST, refusalWords, statusWords } from './words.js';

// Milliseconds without a byte after which no answer is awaited any more. A slow line has one more for each byte sent.
const SILENCE = 30000;

/** @type {T.Ask} */
export async function ask(path, { pass, body } = {}) {
  const stop = new AbortController();
  let timer = setTimeout(() => stop.abort(), SILENCE + (body?.length ?? 0));
  const heard = () => {
    clearTimeout(timer);
    timer = setTimeout(() => stop.abort(), SILENCE);
  };
  /** @type {T.Lost} */
  let lost = 'Unreachable';
  try {
    const reply = await fetch(path, {
      method: body === undefined ? 'GET' : 'POST', headers: pass === undefined ? {} : { 'Atlantis-Pass': pass }, body,
      redirect: 'manual', cache: 'no-store', signal: stop.signal,
    });
    lost = reply.type === 'opaqueredirect' ? 'Redirect' : 'CutOff';
    if (lost === 'CutOff') return replyOf(reply.status, await textOf(reply, heard));
  } catch {
    if (stop.signal.aborted) lost = 'Timeout';
  } finally {
    clearTimeout(timer);
  }
  return replyOf(0, '', lost);
}

/** @type {T.ReplyOf} */
const replyOf = (status, text, lost) => {
  const json = Object(jsonIn(text));
  return { status, text, lost, isOk: status === 200, json, error: typeof json.error === 'string' ? json.error : null };
};

/** @type {T.TextOf} */
async function textOf(reply, heard) {
  const reader = reply.body?.getReader();
  const decoder = new TextDecoder();
  let text = '';
  for (let piece = await reader?.read(); piece && !piece.done; piece = await reader?.read()) {
    heard();
    text += decoder.decode(piece.value, { stream: true });
  }
  return text + decoder.decode();
}

/** @param {T.Reply} reply */
export const refusalOf = ({ lost, error, status }) => (
  lost ? LOST[lost] : error === null ? statusWords(status) : refusalWords(error));

/** @type {T.IsUnknown} */
export const isUnknown = ({ lost, error, status }) => (
  lost ? lost !== 'Redirect' : error === null && [500, 502, 504].includes(status));

/** @param {T.Reply} reply */
export function unreadable(reply) {
  const text = reply.text.trim().slice(0, 200);
  return `The server sent an ${text && 'answer that this page cannot read: '}${text || 'empty answer.'}`;
}
