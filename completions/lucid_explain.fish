# Completion of the words of lucid_explain in fish: they are those of lucid.
complete -c lucid_explain -w lucid
