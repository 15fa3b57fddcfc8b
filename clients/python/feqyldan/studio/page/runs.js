// Runs of the graph. While one is under way, only the last change waits.
import { call, CallError } from './api.js'
import { byId, setText } from './dom.js'

// Milliseconds after a change until more of a run is asked for.
const PATIENCE = 120
// The status of a call for the samples of another window's run.
const OTHER_RUN = 409

export class Runs {
  constructor (studio) {
    this.studio = studio
    // The milliseconds of each run, for benchmarks.
    this.latencies = []
    Object.assign(this, { isRunning: false, isDue: false, stamp: null })
  }

  // Runs the graph as it is now. `stamp` is the time of the event that changed it.
  start (stamp = performance.now()) {
    this.stamp ??= stamp
    this.isDue = true
    // What was said before was about an earlier change.
    this.studio.say('')
    this.studio.strip?.stop()
    if (!this.isRunning) this.run()
  }

  async run () {
    this.isRunning = true
    try {
      while (this.isDue) await this.next()
    } finally { this.isRunning = false }
    this.studio.strip.fillSoon()
  }

  // Runs the last change. If that fails and the graph has changed since, the later change runs.
  async next () {
    const stamp = this.stamp ?? performance.now()
    Object.assign(this, { isDue: false, stamp: null })
    try {
      await this.once(stamp)
    } catch (error) {
      if (this.isDue) return
      this.studio.say(error.message, true)
      // The cards and the properties are those of the graph as it is, whatever the run gives.
      if (error instanceof CallError) this.studio.show()
    }
  }

  async once (stamp) {
    const { studio } = this
    const { result, model, at } = studio
    const wanted = studio.needed()
    const sent = performance.now()
    const reply = await call('run', { contents: model.contents, at, has: result.has(), want: wanted.map(name => this.want(name)) })
    const came = performance.now()
    result.take(reply, wanted)
    // What is shown may have changed with the graph. The change isn't shown before the next run.
    if (studio.needed().some(name => !wanted.includes(name) && result.shown[name]?.kind === 'image')) {
      this.isDue = true
      this.stamp ??= stamp
    }
    studio.show()
    studio.viewer.probeAnew()
    const drawn = performance.now()
    await painted()
    const took = performance.now() - stamp
    this.latencies.push({ took, call: came - sent, draw: drawn - came, graph: 1e3 * reply.seconds.graph })
    setText(byId('times'), `${took.toFixed(0)} ms · graph ${(1e3 * reply.seconds.graph).toFixed(1)} ms`)
  }

  // The part of an image that is needed, and the mark of the samples that are here.
  want (name) {
    const { result, viewer } = this.studio
    const full = result.fulls.get(name)
    const shape = result.shown[name] ?? full
    const part = shape ? viewer.partOf(shape) : {}
    return { name, mark: full?.covers(part) ? full.mark : null, ...part }
  }
}

// A call for more of the last run. It is made when nothing has changed for a while. A run that is
// under way shows something new at its end, for which the call is made anew.
export class LateCall {
  constructor (studio) { this.studio = studio }

  // Replaces the call that waits, by none if there is no `make`.
  make (make) {
    clearTimeout(this.timer)
    if (!make) return
    this.timer = setTimeout(async () => {
      if (this.studio.runs.isRunning) return
      try { await make() } catch (error) {
        if (error.status === OTHER_RUN) this.studio.runs.start()
        else this.studio.say(error.message, true)
      }
    }, PATIENCE)
  }
}

// Resolves after the next frame was painted.
function painted () {
  return new Promise(resolve => {
    if (document.hidden) { resolve(); return }
    requestAnimationFrame(() => {
      const { port1, port2 } = new MessageChannel()
      port1.onmessage = resolve
      port2.postMessage(0)
    })
  })
}
