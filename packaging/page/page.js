'use strict';

const at = (id) => document.getElementById(id);
let worker;

// Examples: behind a line '==> NAME' stands the text of that name.
const examples = new Map();
for (const part of at('examples').textContent.split(/^==> /m).slice(1)) {
  const end = part.indexOf('\n');
  examples.set(part.slice(0, end), part.slice(end + 1));
  at('example').append(new Option(part.slice(0, end)));
}

function tell(state) {
  at('state').textContent = state;
}

function show(id) {
  for (const tab of ['report', 'page']) {
    at(tab).hidden = tab !== id;
    at('tab-' + tab).setAttribute('aria-selected', String(tab === id));
  }
}

function ended() {
  at('check').disabled = false;
  at('stop').hidden = true;
}

// Shows what came of a call.
function answered(answer) {
  ended();
  if (answer.failure) {
    tell('it failed: ' + answer.failure);
    return;
  }
  const lines = answer.out.trimEnd().split('\n');
  const verdict = answer.page ? lines.pop() : '';
  at('verdict').textContent = verdict;
  at('verdict').className = answer.status === 0 ? 'good' : 'bad';
  at('report').textContent = answer.err + answer.out;
  at('page').srcdoc = answer.page;
  at('tabs').hidden = false;
  at('tab-page').hidden = !answer.page;
  show('report');
  document.body.dataset.status = answer.status;
  tell('');
}

// Makes a worker, gives it the module, and then does something.
function start(then) {
  const source = new Blob([at('worker').textContent], { type: 'text/javascript' });
  worker = new Worker(URL.createObjectURL(source));
  worker.onmessage = ({ data }) => {
    if (!data.isReady) return answered(data);
    ended();
    then();
  };
  worker.postMessage({ module: at('module').textContent });
}

function check() {
  if (at('check').disabled) return;
  const name = at('name').value.trim() || 'grammar.y';
  const options = ['all', 'settled', 'trees'].filter((it) => at(it).checked).map((it) => '--' + it);
  const words = ['lrcheck', ...options, '--page', 'page.html', '--', name];
  at('check').disabled = true;
  at('stop').hidden = false;
  delete document.body.dataset.status;
  tell('checking');
  worker.postMessage({ words, grammar: at('grammar').value });
}

function stop() {
  worker.terminate();
  tell('stopping');
  at('check').disabled = true;
  at('stop').hidden = true;
  start(() => tell('stopped'));
}

async function take(file) {
  at('name').value = file.name;
  at('grammar').value = await file.text();
  at('example').value = '';
  check();
}

// A grammar in the fragment of a link: packed, in base 64 of links.
async function through(stream, bytes) {
  const made = new Blob([bytes]).stream().pipeThrough(stream);
  return new Uint8Array(await new Response(made).arrayBuffer());
}

async function link() {
  const text = at('name').value + '\n' + at('grammar').value;
  const bytes = await through(new CompressionStream('deflate-raw'), new TextEncoder().encode(text));
  let letters = '';
  for (const byte of bytes) letters += String.fromCharCode(byte);
  location.hash = btoa(letters).replaceAll('+', '-').replaceAll('/', '_').replaceAll('=', '');
  tell('the link stands in the address');
}

async function takeLink() {
  const letters = location.hash.slice(1).replaceAll('-', '+').replaceAll('_', '/');
  if (!letters) return;
  try {
    const packed = Uint8Array.from(atob(letters), (letter) => letter.charCodeAt(0));
    const text = new TextDecoder().decode(await through(new DecompressionStream('deflate-raw'), packed));
    const end = text.indexOf('\n');
    at('name').value = text.slice(0, end);
    at('grammar').value = text.slice(end + 1);
  } catch {
    tell('the link holds no grammar');
  }
}

at('check').onclick = check;
at('stop').onclick = stop;
at('link').onclick = link;
at('tab-report').onclick = () => show('report');
at('tab-page').onclick = () => show('page');
at('file').onchange = ({ target }) => target.files[0] && take(target.files[0]);
at('example').onchange = ({ target }) => {
  if (!target.value) return;
  at('name').value = target.value;
  at('grammar').value = examples.get(target.value);
  check();
};
at('grammar').ondragover = (event) => {
  event.preventDefault();
  at('grammar').classList.add('over');
};
at('grammar').ondragleave = () => at('grammar').classList.remove('over');
at('grammar').ondrop = (event) => {
  event.preventDefault();
  at('grammar').classList.remove('over');
  if (event.dataTransfer.files[0]) take(event.dataTransfer.files[0]);
};
at('grammar').onkeydown = (event) => {
  if (event.key === 'Enter' && (event.ctrlKey || event.metaKey)) check();
};
function begin() {
  tell('');
  if (at('grammar').value) check();
}

takeLink().then(() => start(begin));
