// Calls the procedures of a `vll serve` from Node: one file, no packages, Node 18 or later.
//
//   import { Service } from './vll.mjs'
//
//   const bank = new Service('bank.json')
//   const reply = await bank.transfer(0, 1, 30)      // a procedure of bank.json
//   console.log(reply[0], reply.call)                // the outputs, and the call's place in the order of all calls
//   console.log((await bank.close()).records)
//
// `new Service(file, { socket: path })` calls the service behind `clients/broker.py`, and starts none.
//
// A call that does not commit rejects with `Aborted` or, if it can be tried again, `Moved`; one that cannot be made
// with `Fault`. Once the service has ended all reject with `Ended`: whether a call that was in flight then was made is
// not known. A whole number above 2^53 - 1 is a BigInt, as an argument and in what is returned.
import { spawn } from 'node:child_process'
import { readFileSync } from 'node:fs'
import { connect } from 'node:net'

const LARGEST = 2n ** 64n - 1n
// how much is kept of what a service says: more than its explanation of a refused file has
const MOST_SAID = 2 ** 15

/** Why a call did not commit. */
export class VllError extends Error {
  get name () { return this.constructor.name }
}

/** The line asks for no call, as one with a wrong number of arguments: nothing was done. */
export class Fault extends VllError {}

/** The service has ended, or was closed: whether what was in flight was made is not known. */
export class Ended extends VllError {}

/**
 * The call was made, and aborted: no record has changed. `reason` is the number with which its procedure aborted, or
 * 'overflow', 'underflow', 'zero divisor' or 'moved'; `call` is its place in the order of all calls.
 */
export class Aborted extends VllError {
  constructor (call, reason) {
    super(`call ${call} was aborted: ${reason}`)
    this.call = call
    this.reason = reason
  }
}

/** The value by which the call found a record has changed meanwhile: the call can be made again. */
export class Moved extends Aborted {}

/** First in, first out. */
class Queue {
  #items = []
  #first = 0

  get length () { return this.#items.length - this.#first }

  push (item) { this.#items.push(item) }

  shift () {
    const item = this.#items[this.#first]
    this.#items[this.#first++] = undefined
    if (this.#first > 1024 && this.#first * 2 > this.#items.length) {
      this.#items = this.#items.slice(this.#first)
      this.#first = 0
    }
    return item
  }
}

/** What lines of the service say. JSON has no line feed within a text, so they are one list once they have commas. */
function parsed (lines) {
  const answers = JSON.parse(`[${lines.replaceAll('\n', ',')}]`)
  return answers.every(isExact) ? answers : lines.split('\n').map(parsedAlone)
}

/** Whether no number of the answer was rounded. */
function isExact ({ committed, records = committed, aborted = 0 }) {
  if (records === undefined) return !(aborted > Number.MAX_SAFE_INTEGER)
  for (const number of records) if (number > Number.MAX_SAFE_INTEGER) return false
  return true
}

/** A line of these. Numbers of many digits, which JSON.parse would round, become BigInts. */
function parsedAlone (line) {
  if (!/\d{16}/.test(line) || line.startsWith('{"fault"')) return JSON.parse(line)
  // no other line has a text with digits: no call of this client has an id
  const quoted = line.replace(/\d{16,}/g, '"$&"')
  const isQuoted = value => typeof value === 'string' && /^\d/.test(value)
  return JSON.parse(quoted, (_, value) => isQuoted(value) ? shortest(BigInt(value)) : value)
}

function shortest (number) {
  return number > BigInt(Number.MAX_SAFE_INTEGER) ? number : Number(number)
}

function isWhole (number) {
  return typeof number === 'bigint' ? number >= 0n && number <= LARGEST : Number.isSafeInteger(number) && number >= 0
}

/** A `vll serve` of our own, over two pipes; `ended` is told why it has ended early, if it has. */
function startChild (file, program, read, ended) {
  // Ctrl-C goes to all processes of a group: the service is in one of its own, and ends when its input does
  const child = spawn(program, ['serve', file], { stdio: ['pipe', 'pipe', 'pipe'], detached: true })
  let said = ''
  child.stdin.on('error', () => {}) // the service has ended: 'close' tells
  child.stderr.setEncoding('utf8').on('data', text => { said = (said + text).slice(-MOST_SAID) })
  child.stdout.setEncoding('utf8').on('data', read)
  child.on('error', error => ended(error.message))
  child.on('close', (status, signal) => ended(status === 0 ? undefined : `status ${status ?? signal}: ${said.trim()}`))
  return { input: child.stdin, kill: () => child.kill('SIGKILL') }
}

/** A connection to a broker. */
function startConnection (path, read, ended) {
  const socket = connect({ path, allowHalfOpen: true })
  let why = 'the broker has closed the connection'
  socket.setEncoding('utf8').on('data', read)
  socket.on('error', error => { why = error.message })
  socket.on('end', () => socket.end())
  socket.on('close', () => ended(why))
  return { input: socket, kill: () => socket.destroy() }
}

/**
 * A service: each procedure of the scenario is a method, unless the class has one of that name; `call` makes a call of
 * any. Each returns a promise of the outputs, an array with the call's place as `call`.
 */
export class Service {
  #procs
  #clients
  #inFlight
  #isChild
  #service
  #pending = new Queue()
  #queue = new Queue()
  #begun = []
  #text = ''
  #isClosing = false
  #isInputEnded = false
  #last
  #why
  #settle
  #end = new Promise(resolve => { this.#settle = resolve })

  /** At most `inFlight` lines lack an answer; calls beyond these wait in the client. */
  constructor (file, { program = 'vll', inFlight = 1000, socket } = {}) {
    const scenario = JSON.parse(readFileSync(file, 'utf8'))
    this.#procs = new Map(scenario.procs.map(({ name, args }) => [name, {
      args, head: `,"proc":${JSON.stringify(name)},"args":[`
    }]))
    this.#clients = scenario.clients.length
    this.#inFlight = inFlight
    this.#isChild = socket === undefined
    const read = text => this.#read(text)
    const ended = why => this.#finish(why)
    this.#service = this.#isChild ? startChild(file, program, read, ended) : startConnection(socket, read, ended)
    for (const name of this.#procs.keys()) {
      // a promise's `then` would be called by `await`
      if (!(name in this) && name !== 'then') this[name] = (...args) => this.call(name, args)
    }
  }

  /** Makes a call of the procedure, by the client with this number. */
  call (proc, args, client = 0) {
    const fault = this.#faultOf(proc, args, client)
    if (fault !== undefined) return Promise.reject(new Fault(fault))
    if (this.#why !== undefined || this.#isClosing) {
      return Promise.reject(new Ended(this.#why ?? 'the service was closed'))
    }
    const line = `{"client":${client}${this.#procs.get(proc).head}${args.join()}]}\n`
    return new Promise((resolve, reject) => {
      const call = { resolve, reject, line }
      if (this.#pending.length < this.#inFlight) this.#write(call)
      else this.#queue.push(call)
    })
  }

  /** Waits until all calls are answered and the service has ended; returns its last line, nothing from a broker. */
  async close () {
    this.#isClosing = true
    this.#endInput()
    await this.#end
    if (this.#why !== undefined) throw new Ended(this.#why)
    return this.#last
  }

  /** Ends the service, or the connection to the broker, at once: what is in flight has an unknown outcome. */
  kill () { this.#service.kill() }

  #faultOf (proc, args, client) {
    const wanted = this.#procs.get(proc)?.args
    if (wanted === undefined) return `there is no procedure ${proc}`
    if (args.length !== wanted) return `${proc} takes ${wanted} arguments, and not ${args.length}`
    if (!isWhole(client) || client >= this.#clients) return `there is no client ${client}`
    for (const number of args) {
      if (!isWhole(number)) return `${String(number)} is no whole number from 0 to ${LARGEST}, a BigInt above 2^53 - 1`
    }
  }

  /** All lines of one turn of the event loop are written at once. */
  #write (call) {
    if (this.#text === '') setImmediate(() => this.#flush())
    this.#text += call.line
    this.#pending.push(call)
  }

  #flush () {
    if (this.#text !== '' && !this.#service.input.destroyed) this.#service.input.write(this.#text)
    this.#text = ''
    if (this.#isClosing) this.#endInput()
  }

  #endInput () {
    if (this.#isInputEnded || this.#queue.length > 0 || this.#text !== '') return
    this.#isInputEnded = true
    this.#service.input.end()
  }

  #read (text) {
    const end = text.lastIndexOf('\n')
    if (end < 0) {
      this.#begun.push(text)
      return
    }
    const lines = this.#begun.join('') + text.slice(0, end)
    this.#begun = [text.slice(end + 1)]
    try {
      for (const answer of parsed(lines)) this.#answer(answer)
    } catch (error) {
      this.kill()
      this.#finish(`what it wrote is no answer: ${error.message}`)
    }
    if (this.#isClosing) this.#endInput()
  }

  #answer (answer) {
    if (answer.calls !== undefined) {
      this.#last = answer
      return
    }
    const { resolve, reject } = this.#pending.shift()
    if (answer.committed !== undefined) {
      answer.committed.call = answer.call
      resolve(answer.committed)
    } else if (answer.aborted !== undefined) {
      reject(new (answer.aborted === 'moved' ? Moved : Aborted)(answer.call, answer.aborted))
    } else {
      reject(new Fault(answer.fault))
    }
    if (this.#queue.length > 0) this.#write(this.#queue.shift())
  }

  /** The service has ended: all that lacks an answer has an unknown outcome. */
  #finish (why) {
    if (this.#why !== undefined) return
    const isWell = this.#isClosing && this.#pending.length + this.#queue.length === 0 &&
      (!this.#isChild || (why === undefined && this.#last !== undefined))
    if (!isWell) this.#why = `the service has ended: ${why ?? 'its last line is missing'}`
    for (const calls of [this.#pending, this.#queue]) {
      while (calls.length > 0) calls.shift().reject(new Ended(this.#why))
    }
    this.#settle()
  }
}
