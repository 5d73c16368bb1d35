// A worker that reads one file. A question gets its answer by a number.

/** The worker's script. As a blob it has the page's Content-Security-Policy, which one that a server sends has not. */
const READER = new URL("../reader/worker.js", import.meta.url);
const SCRIPT = new Blob([`import ${JSON.stringify(READER)};`], { type: "text/javascript" });

export class Session {
  #worker = new Worker(URL.createObjectURL(SCRIPT), { type: "module" });
  #waiting = new Map();
  #asked = 0;
  /** Why the worker can't answer, if it can't be loaded. */
  #failure;

  constructor() {
    this.#worker.addEventListener("message", ({ data: { number, answer, error } }) => {
      const { resolve, reject } = this.#waiting.get(number);
      this.#waiting.delete(number);
      if (error === undefined) resolve(answer);
      else reject(new Error(error));
    });
    this.#worker.addEventListener("error", (event) => {
      this.#failure = new Error(event.message || "The reader can't be loaded.");
      for (const { reject } of this.#waiting.values()) reject(this.#failure);
      this.#waiting.clear();
    });
  }

  /** Asks one of the questions of reader/worker.js. */
  ask(question, ...words) {
    if (this.#failure) return Promise.reject(this.#failure);
    const number = this.#asked++;
    this.#worker.postMessage({ number, question, words });
    return new Promise((resolve, reject) => this.#waiting.set(number, { resolve, reject }));
  }

  /** Ends the worker, which gives its memory back. What it has not answered stays without an answer. */
  end() {
    this.#worker.terminate();
  }
}
