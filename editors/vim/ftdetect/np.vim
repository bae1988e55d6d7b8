" Files that end with .np are sources of np.
autocmd BufRead,BufNewFile *.np setfiletype np
