% What is kept by key: an association list is searched by ==, which compares whole keys. Two lists are the same as soon as what is
% known of them tells it, and differ as soon as one part does.
local Find Keys Open in
  fun {Find List Key Default}
    case List of Pair|Rest then
      case Pair of entry(Other Kept) then
        if Other == Key then Kept else {Find Rest Key Default} end
      else Default end
    else Default end
  end
  Keys = entry(point(x:1 y:2) first)|entry(point(x:1 y:3) second)|nil
  {Browse {Find Keys point(x:1 y:3) none}}
  {Browse {Find Keys point(x:2 y:2) none}}
  {Browse (1|Open) == (2|Open)}
end
