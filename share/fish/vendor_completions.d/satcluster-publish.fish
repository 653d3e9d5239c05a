# tools/pages.py --man makes this of what the script's parser knows.
complete -c satcluster-publish -l help -d 'show this help message and exit'
complete -c satcluster-publish -l program -r -d 'the proved program'
complete -c satcluster-publish -l folder -r -d 'of the run of satcluster-conquer that has made PROOF: its pictures and figures are published too'
complete -c satcluster-publish -l version -d 'print the version'
