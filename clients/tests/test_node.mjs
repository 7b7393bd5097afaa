// The client for Node; its file, the program and the bank are in the environment (clients/tests/node).
import assert from 'node:assert/strict'
import { spawn, spawnSync } from 'node:child_process'
import { once } from 'node:events'
import { chmodSync, mkdtempSync, readFileSync, rmSync, writeFileSync } from 'node:fs'
import { tmpdir } from 'node:os'
import { join } from 'node:path'
import { after, test } from 'node:test'
import { Aborted, Ended, Fault, Moved, Service } from '../node/vll.mjs'

const { VLL_PROGRAM: program, VLL_BANK: bankFile, VLL_BROKER: broker } = process.env
const ACCOUNTS = 8
const HELD = 100
const LARGEST = 2n ** 64n - 1n
const timeout = 120000

const room = mkdtempSync(join(tmpdir(), 'vll-'))
after(() => rmSync(room, { recursive: true }))

/** A service that does not outlive its test. */
function open (test, file, options) {
  const service = new Service(file, { program, ...options })
  test.after(() => service.kill())
  return service
}

/** A program in place of vll. */
function standIn (name, text) {
  const path = join(room, name)
  writeFileSync(path, `#!/usr/bin/env node\n${text}`)
  chmodSync(path, 0o755)
  return path
}

// Answers each line with its client and its arguments; its last record is how many lines it found at most at once.
const echoing = () => standIn('echoing', `
  const lines = require('node:readline').createInterface({ input: process.stdin })
  let calls = 0, waiting = [], most = 0
  const answer = () => {
    most = Math.max(most, waiting.length)
    for (const [, ...numbers] of waiting) console.log('{"call":' + calls++ + ',"committed":[' + numbers + ']}')
    waiting = []
  }
  lines.on('line', line => {
    if (waiting.push(/"client":(\\d+).*"args":\\[(.*)\\]/.exec(line)) === 1) setTimeout(answer, 20)
  })
  lines.on('close', () => { answer(); console.log('{"calls":' + calls + ',"records":[' + most + ']}') })`)

function scenario (name, change) {
  const found = JSON.parse(readFileSync(bankFile, 'utf8'))
  change(found)
  const path = join(room, name)
  // a BigInt among the records
  writeFileSync(path, JSON.stringify(found, (_, value) => typeof value === 'bigint' ? `big ${value}` : value)
    .replaceAll(/"big (\d+)"/g, '$1'))
  return path
}

/** Random numbers that are the same each time. */
function drawing (seed) {
  let state = seed
  return limit => {
    state = (Math.imul(state, 1664525) + 1013904223) >>> 0
    return Math.floor(state / 2 ** 32 * limit)
  }
}

/** What each call gives if they are made one at a time, and the records that they leave. */
function model (calls) {
  const records = Array(ACCOUNTS).fill(HELD)
  const outcomes = calls.map(([from, to, amount]) => {
    if (records[from] < amount) return 1
    records[from] -= amount
    records[to] += amount
    return [records[from]]
  })
  return { outcomes, records }
}

async function outcome (promise) {
  try {
    const reply = await promise
    return { call: reply.call, what: [...reply] }
  } catch (error) {
    if (!(error instanceof Aborted)) throw error
    return { call: error.call, what: error.reason }
  }
}

test('calls have outputs and places', { timeout }, async t => {
  const bank = open(t, bankFile)
  const reply = await bank.transfer(0, 1, 30)
  assert.deepEqual([...reply], [70])
  assert.equal(reply.call, 0)
  assert.equal((await bank.call('balance', [1], 9)).call, 1)
  assert.deepEqual(await bank.close(), { calls: 2, records: [70, 130, ...Array(6).fill(HELD)] })
  await assert.rejects(bank.balance(0), Ended)
})

for (const inFlight of [1000, 7]) {
  test(`many calls are one serial run, with ${inFlight} in flight`, { timeout }, async t => {
    const bank = open(t, bankFile, { inFlight })
    const draw = drawing(inFlight)
    const calls = Array.from({ length: 20000 }, () => [draw(ACCOUNTS), draw(ACCOUNTS), draw(60)])
    const found = await Promise.all(calls.map((args, at) => outcome(bank.call('transfer', args, at % 10))))
    const { outcomes, records } = model(calls)
    assert.deepEqual(found, outcomes.map((what, call) => ({ call, what })))
    assert.deepEqual(await bank.close(), { calls: calls.length, records })
  })
}

test('wrong calls are not written', { timeout }, async t => {
  // this service commits each line
  const bank = open(t, bankFile, { program: echoing() })
  for (const [proc, args, client] of [['transfer', [0, 1]], ['transfer', [0, 1, 2, 3]], ['sum', []], ['balance', [0.5]],
    ['balance', ['0']], ['balance', [-1]], ['balance', [-1n]], ['balance', [2 ** 53]], ['balance', [LARGEST + 1n]],
    ['balance', [0], 10], ['balance', [0], -1], ['balance', [0], '0']]) {
    await assert.rejects(bank.call(proc, args, client), Fault)
  }
  assert.equal((await bank.close()).calls, 0)
})

test('reasons are told apart', { timeout }, async t => {
  const file = scenario('reasons.json', found => found.procs.push(
    { name: 'then', args: 1, keys: [], body: [['reply', ['div', 7, ['arg', 0]]]] },
    { name: 'add', args: 2, keys: [], body: [['reply', ['add', ['arg', 0], ['arg', 1]]]] }))
  const bank = open(t, file)
  const reason = promise => promise.then(assert.fail, error => error.reason)
  assert.equal(await reason(bank.transfer(0, 1, 101)), 1)
  assert.equal(await reason(bank.add(LARGEST, 1)), 'overflow')
  assert.equal(await reason(bank.call('then', [0])), 'zero divisor')
  await assert.rejects(bank.balance(9007199254740993n), Fault)
  assert.equal((await bank.balance(0)).call, 3)
  await bank.close()
})

test('whole numbers above 2^53 are BigInts', { timeout }, async t => {
  const records = [2n ** 53n, 2n ** 53n - 1n, 10n ** 15n, LARGEST, 9007199254740993n]
  const file = scenario('big.json', found => {
    found.records = [...records, ...Array(65531).fill(LARGEST)]
    const body = [['reply', ['arg', 0]], ['reply', ['add', ['arg', 0], ['arg', 1]]]]
    found.procs.push({ name: 'add', args: 2, keys: [], body })
  })
  const wanted = [2n ** 53n, 2 ** 53 - 1, 10 ** 15, LARGEST, 9007199254740993n]
  const bank = open(t, file)
  for (const [at, value] of wanted.entries()) assert.deepEqual([...await bank.balance(at)], [value])
  assert.deepEqual([...await bank.add(LARGEST - 7n, 7)], [LARGEST - 7n, LARGEST])
  assert.deepEqual([...await bank.add(2 ** 53 - 1, 1n)], [2 ** 53 - 1, 2n ** 53n])
  assert.deepEqual([...await bank.add(2n, 3n)], [2, 5])
  const last = await bank.close()
  assert.deepEqual(last.records.slice(0, 5), wanted)
  assert.equal(last.records.length, 65536)
  assert.ok(last.records.slice(5).every(value => value === LARGEST))
})

test('numbers come and go in their places, and in flight is kept', { timeout }, async t => {
  const bank = open(t, bankFile, { program: echoing(), inFlight: 7 })
  assert.deepEqual([...await bank.call('transfer', [LARGEST, 0, 2n ** 53n + 1n], 7)], [7, LARGEST, 0, 2n ** 53n + 1n])
  const found = await Promise.all(Array.from({ length: 50 }, (_, at) => bank.call('balance', [at], at % 10)))
  assert.deepEqual(found.map(reply => [...reply]), found.map((_, at) => [at % 10, at]))
  assert.deepEqual(await bank.close(), { calls: 51, records: [7] })
})

test('close waits for all calls', { timeout }, async t => {
  const bank = open(t, bankFile, { inFlight: 3 })
  const calls = Array.from({ length: 50 }, () => bank.transfer(0, 1, 1))
  const last = await bank.close()
  assert.equal(last.calls, 50)
  assert.deepEqual((await Promise.all(calls)).map(([left]) => left), calls.map((_, at) => 99 - at))
})

test('moved is an error of its own', { timeout }, async t => {
  const bank = open(t, bankFile, { program: standIn('moved', `
    process.stdin.once('data', () => process.stdout.write('{"call":0,"aborted":"moved"}\\n'))
    process.stdin.on('end', () => process.stdout.write('{"calls":1,"records":[]}\\n'))`) })
  await assert.rejects(bank.balance(0), Moved)
  assert.deepEqual(await bank.close(), { calls: 1, records: [] })
})

test('a fault may have many digits', { timeout }, async t => {
  const bank = open(t, bankFile, { program: standIn('digits', `
    process.stdin.once('data', () => process.stdout.write('{"fault":"there is no p12345678901234567"}\\n'))
    process.stdin.on('end', () => process.stdout.write('{"calls":0,"records":[]}\\n'))`) })
  await assert.rejects(bank.balance(0), error => error instanceof Fault && /no p12345678901234567$/.test(error.message))
  await bank.close()
})

test('the end fails what is in flight', { timeout }, async t => {
  const silent = standIn('silent', 'process.stdin.resume()')
  for (const inFlight of [1000, 3]) {
    const bank = open(t, bankFile, { program: silent, inFlight })
    const calls = Array.from({ length: 10 }, () => bank.balance(0))
    setTimeout(() => bank.kill(), 100)
    for (const { reason } of await Promise.allSettled(calls)) assert.ok(reason instanceof Ended)
    await assert.rejects(bank.balance(0), Ended)
    await assert.rejects(bank.close(), Ended)
  }
})

test('why it ended is told', { timeout }, async t => {
  // as much as an explanation may have
  const said = `vll: scenario: json\nat: line 1, column 1\nwhy: ${'x'.repeat(20000)}`
  const refusing = standIn('refusing', `console.error(${JSON.stringify(said)}); process.exitCode = 2`)
  const noKey = scenario('no_key.json', bank => {
    for (const proc of bank.procs) proc.body = [['reply', ['key', proc.keys.length]]]
  })
  const explained = spawnSync(program, ['explain', noKey], { encoding: 'utf8' }).stdout
  assert.match(explained, /^vll: scenario: check 0 5\nat: .+\nwhy: .+\n$/)
  for (const [file, options, text] of [[bankFile, { program: refusing }, said], [noKey, {}, explained.trim()]]) {
    const refused = open(t, file, options)
    const message = `the service has ended: status 2: ${text}`
    await assert.rejects(refused.balance(0), { message })
    await assert.rejects(refused.close(), Ended)
  }
  const missing = open(t, bankFile, { program: join(room, 'nowhere') })
  await assert.rejects(missing.balance(0), /ENOENT/)
  await assert.rejects(missing.close(), Ended)
  const talking = open(t, bankFile, { program: standIn('talking', 'console.log("what?"); process.stdin.resume()') })
  await assert.rejects(talking.balance(0), Ended)
})

test('Ctrl-C does not reach the service', { timeout }, async t => {
  const script = `import { Service } from ${JSON.stringify(new URL('../node/vll.mjs', import.meta.url).href)}
    const bank = new Service(process.argv[1], { program: process.argv[2] })
    await bank.balance(0)
    process.once('SIGINT', async () => { await bank.balance(0); console.log((await bank.close()).calls) })
    console.log('waits')
    setInterval(() => {}, 1000).unref()
    await new Promise(() => {})`
  const running = spawn(process.execPath, ['--input-type=module', '-e', script, bankFile, program],
    { detached: true, stdio: ['ignore', 'pipe', 'inherit'] })
  running.stdout.setEncoding('utf8')
  const [said] = await once(running.stdout, 'data')
  assert.equal(said, 'waits\n')
  process.kill(-running.pid, 'SIGINT')
  const [calls] = await once(running.stdout, 'data')
  assert.equal(calls, '2\n')
})

test('a broker is called as well', { timeout }, async t => {
  const socket = join(room, 'socket')
  const words = [broker, socket, bankFile, '--program', program]
  const running = spawn('python3', words, { stdio: ['ignore', 'pipe', 'inherit'] })
  const last = once(running.stdout.setEncoding('utf8'), 'data')
  let bank
  for (;;) {
    bank = open(t, bankFile, { socket })
    try {
      await bank.balance(0)
      break
    } catch (error) {
      assert.ok(error instanceof Ended)
      await new Promise(resolve => setTimeout(resolve, 20))
    }
  }
  const other = open(t, bankFile, { socket })
  await Promise.all(Array.from({ length: 500 }, (_, at) => [bank, other][at % 2].transfer(0, 1, 0)))
  for (const each of [bank, other]) assert.equal(await each.close(), undefined)
  running.kill('SIGTERM')
  assert.deepEqual(JSON.parse((await last)[0]), { calls: 501, records: Array(ACCOUNTS).fill(HELD) })
  assert.deepEqual((await once(running, 'close')).slice(0, 1), [0])
})
