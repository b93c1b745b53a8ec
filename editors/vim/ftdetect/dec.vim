" Files that end in .e are domains of dec (Vim itself takes them for Eiffel or Euphoria).
autocmd BufNewFile,BufRead *.e set filetype=dec
