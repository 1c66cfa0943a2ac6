% A bounded buffer: the consumer's questions and the producer's answers are two streams, and the buffer asks at most three
% elements ahead of the consumer.
local Produce Buffer Start Serve Take Questions Answers in
  % answers each question with the next number
  proc {Produce N Xs}
    case Xs of X|Xr then X = N {Produce N + 1 Xr}
    else skip end
  end
  % asks N elements ahead; the result is what is to be asked next
  proc {Start N Xs ?End}
    if N =< 0 then End = Xs
    else
      local X Xr in
        Xs = X|Xr
        End = {Start N - 1 Xr}
      end
    end
  end
  % each element that the consumer takes lets one more be asked
  proc {Serve Ys Xs End}
    case Ys of Y|Yr then
      local Xr X More in
        Xs = Y|Xr
        End = X|More
        {Serve Yr Xr More}
      end
    else End = nil end
  end
  proc {Buffer N Xs Ys} {Serve Ys Xs {Start N Xs}} end
  % takes N elements and then closes the buffer
  proc {Take N Ys ?Taken}
    if N =< 0 then Ys = nil Taken = nil
    else
      local Y Yr in
        Ys = Y|Yr
        Taken = Y|{Take N - 1 Yr}
      end
    end
  end
  thread {Produce 0 Questions} end
  thread {Buffer 3 Questions Answers} end
  {Browse {Take 6 Answers}}
end
