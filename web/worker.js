// Carries out calls one after the other, apart from the page, so that the page can end it at any time.
'use strict';

let call;

// What is asked for: a command over files; where a run stands at a step; or an audit of the program of files, for which its image is
// built first.
function answered({ words, files, audit, replay }) {
  if (replay) return replayed(replay, files);
  if (!audit) return call(words, files);
  const built = call(['build', ...audit.options, 'program', ...audit.names], files);
  if (built.status !== 0) return built;
  return call(['audit', ...audit.denied.map((selector) => '--deny=' + selector), 'program', audit.class], [['program', built.stored]]);
}

// Where a run stands at a step, and what it has printed up to there: the beginning of what a run of no more steps prints.
function replayed({ options, limits, file, step }, files) {
  const answer = call(['replay', ...options, ...limits, file, '=' + step], files);
  if (answer.status !== 0) return answer;
  const [position, cells, depth, out] = answer.out.match(/\d+/g).map(Number);
  const less = limits.filter((limit) => !limit.startsWith('--steps='));
  const printed = position > 0 ? call(['run', ...options, ...less, '--steps=' + position, file], files).out : '';
  const bytes = new TextEncoder().encode(printed).slice(0, out);
  return { ...answer, position, cells, depth, printed: new TextDecoder().decode(bytes) };
}

onmessage = ({ data }) => {
  try {
    if (data.module) {
      call = caller(new WebAssembly.Instance(new WebAssembly.Module(data.module), {}));
      postMessage({ ready: true });
      return;
    }
    const from = performance.now();
    const answer = answered(data);
    postMessage({ answer, milliseconds: performance.now() - from });
  } catch (error) {
    // After a trap nothing is known of the instance's memory: the page throws this worker away.
    postMessage({ trap: String(error) });
  }
};
