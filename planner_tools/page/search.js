// The search for walks that go wrong, over all classes of packets and all rounds, bit by bit: so that nothing that goes wrong stays unsaid because another
// class was chosen.

// How long the search goes on before the page may answer, in milliseconds.
const A_TURN = 25;

class Search {
  // `told` is called after each turn.
  constructor(update, told) {
    Object.assign(this, { update, told, found: new Map(), whole: new Set(), jobs: [], done: 0, isGoing: false });
    for (let position = 0; position <= (update.alone ? 0 : update.last); position++) this.jobs.push(this.job(position, this.touched(position)));
    this.total = this.jobs.length;
  }

  job(position, numbers) { return { position, numbers, at: 0 }; }

  allClasses() { return Array.from({ length: this.update.classCount }, (_, number) => number); }

  // The classes that a round changes. Any other class is carried in it as in the round before: so it is looked at there. Before the first round all are.
  touched(position) {
    const { update } = this, rules = update.changesIn(position).map((change) => change.rule);
    if (!update.isRound(position)) return null;
    const atoms = update.atoms.map((_, at) => at).filter((at) => rules.some((rule) => rule.first <= update.atoms[at].first && update.atoms[at].first <= rule.last));
    const groups = update.hosts.length * update.vlans.length, numbers = [];
    for (let group = 0; group < groups; group++) for (const atom of atoms) numbers.push(group * update.atoms.length + atom);
    return numbers;
  }

  // Looks at all classes of a position before it looks at anything else.
  first(position) {
    if (this.whole.has(position)) return;
    this.whole.add(position);
    this.jobs = [this.job(position, null), ...this.jobs.filter((job) => job.position !== position || job.at > 0)];
    this.total = this.done + this.jobs.length;
    this.go();
  }

  go() {
    if (this.isGoing) return;
    this.isGoing = true;
    setTimeout(() => this.turn());
  }

  turn() {
    const until = performance.now() + A_TURN;
    while (this.jobs.length && performance.now() < until) this.next();
    this.isGoing = false;
    if (this.jobs.length) this.go();
    this.told();
  }

  // Looks at one class.
  next() {
    const job = this.jobs[0];
    job.numbers ||= this.allClasses();
    if (job.at === job.numbers.length) {
      this.jobs.shift();
      this.done++;
      return;
    }
    const number = job.numbers[job.at++], { update } = this, it = update.classOf(number);
    const walk = badWalk(update, job.position, it, walksOf(update, job.position, it), null);
    if (!walk) return;
    if (!this.found.has(job.position)) this.found.set(job.position, new Map());
    this.found.get(job.position).set(number, walk.kind);
  }

  // Goes on to the end, without a pause.
  finish() {
    while (this.jobs.length) this.next();
    this.told();
  }

  // The classes with a walk that goes wrong in a position, as far as they were found, ascending.
  at(position) { return [...(this.found.get(position) || new Map()).keys()].sort((a, b) => a - b); }

  // The positions with such classes.
  positions() { return [...this.found.keys()].sort((a, b) => a - b); }

  isLooking(position) { return this.jobs.some((job) => job.position === position); }
}
