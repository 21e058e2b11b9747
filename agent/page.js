// Refreshes what the page shows while somebody looks, asks before something ends, and gives commands without leaving the page.
'use strict'
const live = document.getElementById('live'), told = document.getElementById('told'), filter = document.getElementById('filter')
let shown = '', asks = 0, answered = 0

const tell = (text, isFault) => { told.textContent = text; told.hidden = false; told.dataset.fault = isFault ? 'yes' : '' }

async function refresh() {
  const ask = ++asks
  try {
    const words = new URLSearchParams(location.search)
    words.set('live', '1')
    const answer = await fetch(location.pathname + '?' + words)
    const text = await answer.text()
    if (ask !== asks) return  // an older answer than what is asked for now
    live.classList.toggle('stale', !answer.ok)
    if (!answer.ok) { tell(text, true); return }
    if (told.dataset.fault) told.hidden = true
    document.title = decodeURIComponent(answer.headers.get('X-Title'))
    if (text !== shown) { live.innerHTML = text; shown = text }
  } catch (gone) {
    live.classList.add('stale')
    document.title = 'not served - Sebrakt'
    tell('This page is no longer served.', true)
  } finally { answered = Math.max(answered, ask) }
}

async function give(form, button) {
  const words = new URLSearchParams(new FormData(form, button))
  words.set('sure', 'yes')
  words.set('live', '1')
  try {
    const answer = await fetch('do', { method: 'POST', body: words })
    tell(await answer.text())
  } catch (gone) { tell('This page is no longer served.') }
  refresh()
}

document.addEventListener('submit', (event) => {
  if (event.target === filter) {
    event.preventDefault()
    choose()
  } else if (event.target.method === 'post') {
    event.preventDefault()
    const asked = event.submitter && event.submitter.dataset.ask
    if (!asked || confirm(asked)) give(event.target, event.submitter)
  }
})

function choose() {
  const words = new URLSearchParams(new FormData(filter))
  history.replaceState(null, '', './?' + words)
  refresh()
}

if (filter) filter.addEventListener('input', choose)
setInterval(() => { if (!document.hidden && answered === asks) refresh() }, 1000)
document.addEventListener('visibilitychange', () => { if (!document.hidden) refresh() })
