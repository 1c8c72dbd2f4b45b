# Puts what ./build made into a folder, and takes it away again. What was put there stands in share/plexrun/installed, one path a line; a folder that was
# made for it has a stroke at its end.

# Each file to be put there, and its place below the folder.
pairs() {
    printf '%s\t%s\n' "$program" bin/plexrun "$top/man/plexrun.1" share/man/man1/plexrun.1
    for file in "$top"/crates/example_runs/data/*; do printf '%s\t%s\n' "$file" "share/plexrun/examples/${file##*/}"; done
    for page in FORMS SCRIPT REFUSALS; do printf '%s\t%s\n' "$top/docs/$page.md" "share/plexrun/$page.md"; done
}

installed=share/plexrun/installed

# Whether a place is free, or was put there before.
is_ours() { [ ! -e "$1/$2" ] && [ ! -L "$1/$2" ] || { [ -f "$1/$installed" ] && grep -qxF -- "$2" "$1/$installed"; }; }

# The folders that aren't there yet, each with a stroke behind it.
new_folders() {
    for part in bin share share/man share/man/man1 share/plexrun share/plexrun/examples; do [ -d "$1/$part" ] || echo "$part/"; done
}

install_in() {
    folder=$1
    mkdir -p -- "$folder" && folder=$(cd -- "$folder" && pwd) || exit 73
    pairs | while IFS=$(printf '\t') read -r from to; do
        is_ours "$folder" "$to" || { say "$folder/$to is there already, and was not put there by ./build --install"; exit 73; }
    done || exit 73
    # (an earlier version may have put files there that this one doesn't have)
    [ ! -f "$folder/$installed" ] || remove_from "$folder"
    made=$(new_folders "$folder")
    mkdir -p -- "$folder/share/plexrun" || exit 73
    { printf '%s\n' $made; pairs | cut -f 2; echo "$installed"; } >"$folder/$installed" || exit 73
    pairs | while IFS=$(printf '\t') read -r from to; do
        mkdir -p -- "$folder/${to%/*}" && cp -- "$from" "$folder/$to" || exit 73
    done || { say "not all could be put into $folder; ./build --uninstall $folder takes away what was"; exit 73; }
    say "plexrun is in $folder: bin/plexrun, share/man/man1/plexrun.1, share/plexrun; ./build --uninstall $folder takes that away"
}

# Takes the files of the list away, and those folders that were made for them and are empty now.
remove_from() {
    folder=$1
    # (the list comes from a file that anybody may have changed: nothing outside the folder is touched)
    if grep -qE '^/|(^|/)\.\.(/|$)' "$folder/$installed"; then say "$folder/$installed names what is not in $folder"; exit 73; fi
    list=$(sort -r "$folder/$installed")
    printf '%s\n' "$list" | grep -v '/$' | while read -r to; do rm -f -- "$folder/$to" || exit 73; done || exit 73
    printf '%s\n' "$list" | grep '/$' | while read -r part; do rmdir -- "$folder/$part" 2>/dev/null; done
    :
}

uninstall_from() {
    [ -f "$1/$installed" ] || { say "$1 has nothing that ./build --install put there"; exit 73; }
    remove_from "$1"
    say "what ./build --install put into $1 is gone"
}
