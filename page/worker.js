// What the page's worker does: its first message has the module, and each other one is a call. `wants` is what else is to be found in the output.
import { Program } from "./program.js";
import { firstsOf, slotsOf } from "./slots.js";
import { Text } from "./text.js";

let program;

function answerOf({ words, input, wants }) {
  const begun = performance.now();
  const { status, output } = program.call(words, input);
  const milliseconds = performance.now() - begun;
  const text = new Text(output);
  const answer = { status, output, starts: text.starts, milliseconds };
  if (wants?.firsts) answer.firsts = firstsOf(text, wants.firsts);
  if (wants?.slots) answer.slots = slotsOf(text);
  return answer;
}

onmessage = ({ data }) => {
  if (data.module) {
    program = new Program(data.module);
    return;
  }
  try {
    const answer = answerOf(data);
    postMessage(answer, [answer.output.buffer, answer.starts.buffer]);
  } catch (error) {
    postMessage({ error: String(error) });
  }
};
