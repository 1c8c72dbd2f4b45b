" Made by editors/make from docs/FORMS.md.
autocmd BufNewFile,BufRead *.plex setfiletype plex
