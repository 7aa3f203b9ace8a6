// Asks the engine of a page that is open in a browser, in a worker of its own: a function of the questions as page_asking.js has them.
async ({ files, questions }) => {
  const part = async name => {
    const bytes = Uint8Array.from(atob(document.getElementById(name).textContent), character => character.charCodeAt(0));
    return new Uint8Array(await new Response(new Blob([bytes]).stream().pipeThrough(new DecompressionStream('deflate'))).arrayBuffer());
  };
  const worker = new Worker(URL.createObjectURL(new Blob([await part('worker')], { type: 'text/javascript' })));
  worker.postMessage({ engine: await WebAssembly.compile(await part('engine')) });
  const answers = [];
  for (const { words, names } of questions) {
    const given = Object.fromEntries(names.map(name => [name, files[name]]));
    const told = await new Promise(done => {
      worker.onmessage = ({ data }) => done(data);
      worker.postMessage({ id: answers.length, asked: 'ask', given: [words, given] });
    });
    answers.push(told.answer || { refused: told.refused });
  }
  worker.terminate();
  return answers;
}
