printf '%s\n' 'thread 0' 'replies 50000' 'sum 0' 'end done' number,phase,held,live,bodies,stubs,end
printf '%s\n' 1,inactive,16,32,0,0,1 2,move,16,32,0,0,1 3,move,16,16,2,0,17
for ((end = 17, number = 4; number < 9997; number += 2, end += 16)); do
    echo "$number,mark,16,32,0,0,$end"
    echo "$((number + 1)),move,16,16,2,0,$((end + 16))"
done
