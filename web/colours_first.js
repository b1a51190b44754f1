// Before anything is drawn: dark where the system is dark. The page's switch may change it later.
document.documentElement.dataset.theme = matchMedia('(prefers-color-scheme: dark)').matches ? 'dark' : 'light';
