// Opens a file, and shows the part of it that the page's address names behind its #.
import { AddressView } from "./address_view.js";
import { failure } from "./failure.js";
import { FileView } from "./file_view.js";
import { hasMemory64, NO_MEMORY64 } from "./memory64.js";
import { Session } from "./session.js";
import { TABLES, TablesView } from "./tables.js";
import { decimal } from "./texts.js";
import { TypesView } from "./types_view.js";

const at = (id) => document.getElementById(id);
/** The reader is there before a file is, so that the browser has compiled it by then. */
let session;
let isUsed = false;
let file;
/** The views of the file, each made when it is first shown. */
let views = {};

async function open(opened) {
  if (isUsed) {
    session.end();
    session = new Session();
  }
  isUsed = true;
  views = {};
  file = undefined;
  const asked = session;
  at("parts").hidden = true;
  at("view").replaceChildren();
  at("status").textContent = `Reading ${opened.name}, ${decimal(opened.size)} bytes…`;
  try {
    const format = await asked.ask("open", opened);
    if (asked !== session) return;
    file = { name: opened.name, size: opened.size, format };
    at("status").textContent = `${opened.name} is open.`;
    at("parts").hidden = false;
    if (location.hash.length > 1) show();
    else location.hash = "#file";
  } catch (error) {
    if (asked !== session) return;
    at("status").textContent = "";
    at("view").replaceChildren(failure(error));
  }
}

function viewOf(name) {
  if (name === "types") return new TypesView(session);
  if (name === "address") return new AddressView(session);
  if (name in TABLES) return new TablesView(session, name);
  return new FileView(session, file);
}

function show() {
  if (!file) return;
  const [name, address] = location.hash.slice(1).split("/");
  views[name] ??= viewOf(name);
  at("view").replaceChildren(views[name].element);
  for (const link of at("parts").querySelectorAll("a")) link.ariaCurrent = link.hash === `#${name}` ? "page" : null;
  if (address) views[name].select?.(address);
}

async function openSample() {
  const response = await fetch(new URL("../../examples/sample.pdb", import.meta.url));
  open(new File([await response.blob()], "sample.pdb"));
}

if (hasMemory64()) {
  session = new Session();
  at("open").hidden = false;
  at("file").addEventListener("change", () => at("file").files[0] && open(at("file").files[0]));
  at("sample").addEventListener("click", openSample);
  addEventListener("dragover", (event) => event.preventDefault());
  addEventListener("drop", (event) => {
    event.preventDefault();
    if (event.dataTransfer.files[0]) open(event.dataTransfer.files[0]);
  });
  addEventListener("hashchange", show);
} else {
  at("view").replaceChildren(failure(new Error(NO_MEMORY64)));
}
