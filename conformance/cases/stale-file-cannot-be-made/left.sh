! [[ -e missing ]]
