/** A function that runs one call at a time. Of the calls that come meanwhile, only the last one runs. */
export function latest(run) {
  let isRunning = false;
  let next;
  return async (...words) => {
    next = words;
    if (isRunning) return;
    isRunning = true;
    try {
      while (next) {
        const now = next;
        next = undefined;
        await run(...now);
      }
    } finally {
      isRunning = false;
    }
  };
}
