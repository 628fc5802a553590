// Questions to the front, and how their answers are told.

export const at = id => document.getElementById(id);

export function make(tag, text, kind) {
  const made = document.createElement(tag);
  if (text !== undefined) made.textContent = text;
  if (kind) made.className = kind;
  return made;
}

export function button(text, action, kind) {
  const made = make("button", text, kind);
  made.type = "button";
  made.onclick = action;
  return made;
}

// The JSON value of an answer; what was refused is thrown with its text.
export async function ask(path, how) {
  const answer = await fetch(path, {headers: {Accept: "application/json"}, ...how});
  const value = await answer.json().catch(() => ({}));
  if (answer.ok) return value;
  const fault = new Error(value.description || `${answer.status} ${answer.statusText}`);
  Object.assign(fault, {status: answer.status, value});
  fault.again = answer.headers.has("Retry-After");    // it may be asked again, as of a layer that is being built
  throw fault;
}

export function send(method, path, value, headers = {}) {
  return ask(path, {method, headers: {"Content-Type": "application/json", ...headers}, body: JSON.stringify(value)});
}

// Tells a text beside what it is about, in the element of an id; what is about the whole page at its top.
export function tell(text, bad, place = "told") {
  const told = at(place);
  if (!told) return;    // a layer that is there no more
  told.textContent = text;
  told.classList.toggle("bad", Boolean(bad));
  if (bad) told.scrollIntoView({block: "nearest"});
}

// Runs an action, and tells what it throws beside what it is about.
export async function telling(action, place) {
  try {
    await action();
  } catch (fault) {
    tell(fault.message, true, place);
  }
}
