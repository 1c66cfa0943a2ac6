% Work over sites: three threads, at sites 2, 3 and 4, add up ten numbers each, and the first site adds the three parts. Where
% the threads run changes nothing of what is printed.
local Sum A B C in
  % the numbers from From to To, and those before
  fun {Sum From To Before}
    if From > To then Before else {Sum From + 1 To Before + From} end
  end
  thread at 2 A = {Sum 1 10 0} end
  thread at 3 B = {Sum 11 20 0} end
  thread at 4 C = {Sum 21 30 0} end
  {Browse (A + B) + C}
end
