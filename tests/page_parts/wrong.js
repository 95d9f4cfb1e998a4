// What is wider than the page, what is used and has no name, what is too small to be hit, and names of elements that stand twice.
(() => {
  const wrong = [];
  const { scrollWidth } = document.documentElement;
  if (scrollWidth > innerWidth) wrong.push(`the page is ${scrollWidth} wide`);
  for (const root of document.querySelectorAll("#law, #panels")) {
    if (root.checkVisibility() && root.scrollWidth > root.clientWidth) wrong.push(`${root.id} is wider than it is seen`);
  }
  for (const used of document.querySelectorAll("button, input, select, textarea, summary, a")) {
    if (!used.checkVisibility() || used.disabled) continue;
    const labels = [...(used.labels ?? [])].map((label) => label.textContent).join();
    const told = used.outerHTML.slice(0, 80);
    if (!(used.ariaLabel || used.textContent.trim() || labels)) wrong.push(`no name: ${told}`);
    const { width, height } = used.getBoundingClientRect();
    const isSmall = Math.min(width, height) < 24 && !used.matches(".skip");
    if (isSmall) wrong.push(`${Math.round(width)} by ${Math.round(height)}: ${told}`);
  }
  const ids = [...document.querySelectorAll("[id]")].map(({ id }) => id);
  for (const id of new Set(ids)) if (ids.filter((other) => other === id).length > 1) wrong.push(`twice: ${id}`);
  return wrong;
})()
