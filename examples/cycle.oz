% Values may be cyclic. Two rings of different length are the same infinite tree, so that they can be made equal; what is
% shown is cut at level 20.
local X Y Z in
  X = f(X)
  Y = f(Z)
  Z = f(Y)
  X = Y
  {Browse X}
end
