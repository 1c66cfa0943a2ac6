% A bounded buffer: the consumer's questions and the producer's answers are two streams, and the buffer asks at most three
% elements ahead of the consumer.
local Produce Buffer Start Serve Take Zero One Three Six Questions Answers Taken in
  Zero = 0  One = 1  Three = 3  Six = 6
  % answers each question with the next number
  proc {Produce N Xs}
    case Xs of X|Xr then
      local Next in
        X = N
        Next = N + One
        {Produce Next Xr}
      end
    else skip end
  end
  % asks N elements ahead; End is what is to be asked next
  proc {Start N Xs ?End}
    local Ends in
      Ends = N =< Zero
      if Ends then End = Xs
      else
        local X Xr Less in
          Xs = X|Xr
          Less = N - One
          {Start Less Xr End}
        end
      end
    end
  end
  % each element that the consumer takes lets one more be asked
  proc {Serve Ys Xs End}
    case Ys of Y|Yr then
      local Xr More X in
        Xs = Y|Xr
        End = X|More
        {Serve Yr Xr More}
      end
    else End = nil end
  end
  proc {Buffer N Xs Ys}
    local End in
      {Start N Xs End}
      {Serve Ys Xs End}
    end
  end
  % takes N elements and then closes the buffer
  proc {Take N Ys ?Taken}
    local Ends in
      Ends = N =< Zero
      if Ends then Ys = nil Taken = nil
      else
        local Y Yr Less Tr in
          Ys = Y|Yr
          Less = N - One
          Taken = Y|Tr
          {Take Less Yr Tr}
        end
      end
    end
  end
  thread {Produce Zero Questions} end
  thread {Buffer Three Questions Answers} end
  {Take Six Answers Taken}
  {Browse Taken}
end
