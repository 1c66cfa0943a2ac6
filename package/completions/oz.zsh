#compdef oz
# Completion of oz for zsh.
_arguments \
    '--sites[the number of sites, 1 to 64]:number' \
    '--workers[threads that drive the sites, 0 to 64]:number' \
    '--seed[the order is drawn from this number]:number' \
    '--steps[ends a run where a site made so many steps]:number' \
    '--messages[ends a run where the sites send more messages]:number' \
    '--hints[says afterwards what the end may mean]' \
    '--help[what is taken]' \
    '--version[which program runs]' \
    '1:word or text:->first' \
    '*:text:_files -g "*.(oz|run)"'
if [[ $state == first ]]; then
    _alternative 'words:word:(run central save check gen races again picture help version)' 'files:text:_files -g "*.(oz|run)"'
fi
