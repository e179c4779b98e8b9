// Asks the worker, one call behind the other. A worker is used again until it is stopped, or a call of it breaks off; then a new one takes its place.

export class Stopped extends Error {}

export class Runner {
  // `start` gives a new worker that has its module.
  constructor(start) {
    this.start = start;
    this.waiting = [];
  }

  // Gives a promise of the answer: it fails with Stopped, or with why the call broke off.
  ask(words, input, wants) {
    this.worker ??= this.begin();
    return new Promise((done, failed) => {
      this.waiting.push({ done, failed });
      this.worker.postMessage({ words, input, wants });
    });
  }

  begin() {
    const worker = this.start();
    worker.onmessage = ({ data }) => (data.error ? this.drop(new Error(data.error)) : this.waiting.shift().done(data));
    worker.onerror = (event) => this.drop(new Error(event.message || "the worker can't start"));
    return worker;
  }

  // Stops what goes on, if anything does: else the worker stays.
  stop() {
    if (this.waiting.length) this.drop(new Stopped("stopped"));
  }

  drop(why) {
    this.worker?.terminate();
    this.worker = undefined;
    for (const { failed } of this.waiting.splice(0)) failed(why);
  }
}
