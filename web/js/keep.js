// The reader's own work, which this browser keeps over a reload, and nothing else sees.
const KEPT_NAME = "toarmuts-work";
const KEPT_HERE = "What you write is kept in this browser, and only there.";
const NOT_KEPT = "This browser keeps no work of this page: Copy link does.";
const KEPT_SHOWN = "Your work, as this browser has kept it.";

class KeptWork {
  // `storage` returns the browser's, and may throw where that is refused. `show` is called with words, and whether something is kept.
  constructor(storage, show) {
    Object.assign(this, { storage, show });
  }

  // The work { mote, network, isNetwork }, or null.
  read() {
    try {
      const work = JSON.parse(this.storage().getItem(KEPT_NAME));
      return work !== null && isWhole(work.mote) && isWhole(work.network) ? work : null;
    } catch {
      return null;
    }
  }

  // What can't be kept is refused by browsers in several ways, of which each has the same end.
  write(work) {
    try {
      this.storage().setItem(KEPT_NAME, JSON.stringify(work));
      this.show(KEPT_HERE, true);
    } catch {
      this.forget();
      this.show(NOT_KEPT, false);
    }
  }

  forget() {
    try {
      this.storage().removeItem(KEPT_NAME);
    } catch {
      // Nothing was kept.
    }
    this.show("", false);
  }

  // Says whether something is kept.
  tell() {
    const isKept = this.read() !== null;
    this.show(isKept ? KEPT_HERE : "", isKept);
  }
}
