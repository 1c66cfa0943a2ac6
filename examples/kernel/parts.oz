% Work over sites: three threads, at sites 2, 3 and 4, add up ten numbers each, and the first site adds the three parts. Where
% the threads run changes nothing of what is printed.
local Sum Zero One Ten Eleven Twenty TwentyOne Thirty A B C Both All in
  Zero = 0  One = 1  Ten = 10  Eleven = 11  Twenty = 20  TwentyOne = 21  Thirty = 30
  % the numbers from From to To, and those before
  proc {Sum From To Before ?Total}
    local Ends in
      Ends = From > To
      if Ends then Total = Before
      else
        local Next More in
          Next = From + One
          More = Before + From
          {Sum Next To More Total}
        end
      end
    end
  end
  thread at 2 {Sum One Ten Zero A} end
  thread at 3 {Sum Eleven Twenty Zero B} end
  thread at 4 {Sum TwentyOne Thirty Zero C} end
  Both = A + B
  All = Both + C
  {Browse All}
end
