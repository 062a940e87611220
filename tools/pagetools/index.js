'use strict'
// Previous and next, by buttons and arrow keys; how large pages are; which page is seen.
const main = document.querySelector('main')
const figures = Array.from(main.querySelectorAll('figure'))
const links = Array.from(document.querySelectorAll('nav a'))
const views = Array.from(document.querySelectorAll('[data-view]'))
const seen = new Set()
let current = 0

function mark(number) {
  if (links[current]) links[current].removeAttribute('aria-current')
  current = number
  const link = links[current]
  if (!link) return
  link.setAttribute('aria-current', 'page')
  link.parentNode.scrollLeft = link.offsetLeft - link.parentNode.clientWidth / 2
}

function show(number) {
  const next = Math.max(0, Math.min(figures.length - 1, number))
  figures[next].scrollIntoView()
  mark(next)
}

function step(direction) {
  const next = figures[current + 1]
  // from the left page of a spread the next one is past the right page beside it
  const beside = main.className === 'spread' && figures[current].classList.contains('left') &&
    !figures[current].classList.contains('pair') && next && next.classList.contains('right')
  show(current + direction * (beside ? 2 : 1))
}

function view(name) {
  const page = current
  main.className = name
  for (const button of views) button.setAttribute('aria-pressed', button.dataset.view === name)
  if (window.scrollY > 0 || page > 0) show(page)
}

// The page that is seen first in the upper part of the window.
const observer = new IntersectionObserver(entries => {
  for (const entry of entries) {
    const number = figures.indexOf(entry.target)
    if (entry.isIntersecting) seen.add(number)
    else seen.delete(number)
  }
  if (seen.size) mark(Math.min(...seen))
}, { rootMargin: '-25% 0px -55% 0px' })
for (const figure of figures) observer.observe(figure)

document.getElementById('previous').addEventListener('click', () => step(-1))
document.getElementById('next').addEventListener('click', () => step(1))
for (const button of views) button.addEventListener('click', () => view(button.dataset.view))
for (const [number, figure] of figures.entries()) {
  figure.addEventListener('click', event => {
    if (main.className !== 'small' || event.target.closest('a')) return
    current = number
    view('whole')
    show(number)
  })
}
// The tip of a shape, where the pointer is on it.
main.addEventListener('pointerover', event => {
  const tip = event.target.dataset.tip
  if (!tip || event.target.querySelector('title')) return
  const title = document.createElementNS('http://www.w3.org/2000/svg', 'title')
  title.textContent = tip
  event.target.append(title)
})
document.addEventListener('keydown', event => {
  if (event.altKey || event.ctrlKey || event.metaKey || event.shiftKey) return
  if (event.key === 'ArrowRight') step(1)
  else if (event.key === 'ArrowLeft') step(-1)
})
mark(0)
view('whole')
