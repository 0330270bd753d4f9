// The source that imp.kore is written by hand for. Heating and cooling by priorities stand for `strict`.
module IMP-SYNTAX
  imports INT-SYNTAX
  imports BOOL-SYNTAX
  imports ID-SYNTAX

  syntax AExp  ::= Int | Id | "read" "(" ")"
                 > left: AExp "*" AExp | AExp "/" AExp
                 > left: AExp "+" AExp | AExp "-" AExp
  syntax BExp  ::= Bool | AExp "<=" AExp | "!" BExp | BExp "&&" BExp [strict(1)]
  syntax Block ::= "{" "}" | "{" Stmt "}"
  syntax Stmt  ::= Block | Id "=" AExp ";"
                 | "if" "(" BExp ")" Block "else" Block
                 | "while" "(" BExp ")" Block
                 > right: Stmt Stmt
  syntax Ids   ::= List{Id, ","}
  syntax Pgm   ::= "int" Ids ";" Stmt
endmodule

module IMP
  imports IMP-SYNTAX
  imports INT
  imports BOOL

  syntax KResult ::= Int | Bool
  syntax KItem ::= "unbound" "(" Id ")"

  configuration <T>
    <k> $PGM:Pgm </k>
    <state> <n> 0 </n> <sum> 0 </sum> </state>
  </T>

  rule [lookup-n]: <k> n => I ...</k> <n> I </n>
  rule [assign-n]: <k> n = I:Int ; => .K ...</k> <n> _ => I </n>
  rule [lookup-sum]: <k> sum => I ...</k> <sum> I </sum>
  rule [assign-sum]: <k> sum = I:Int ; => .K ...</k> <sum> _ => I </sum>
  rule [unbound]: <k> X:Id => unbound(X) ...</k> [owise]
  rule [read]: <k> read() => ?I:Int ...</k> ensures ?I >=Int 0
  rule [mul]: <k> I1:Int * I2:Int => I1 *Int I2 ...</k>
  rule [add]: <k> I1:Int + I2:Int => I1 +Int I2 ...</k>
  rule [sub]: <k> I1:Int - I2:Int => I1 -Int I2 ...</k>
  rule [div]: <k> I1:Int / I2:Int => I1 /Int I2 ...</k> requires I2 =/=Int 0
  rule [leq]: <k> I1:Int <= I2:Int => I1 <=Int I2 ...</k>
  rule [not]: <k> ! T:Bool => notBool T ...</k>
  rule [and-true]: <k> true && B => B ...</k>
  rule [and-false]: <k> false && _ => false ...</k>
  rule [empty]: <k> { } => .K ...</k>
  rule [block]: <k> { S } => S ...</k>
  rule [seq]: <k> S1:Stmt S2:Stmt => S1 ~> S2 ...</k>
  rule [if-true]: <k> if (true) B1 else _ => B1 ...</k>
  rule [if-false]: <k> if (false) _ else B2 => B2 ...</k>
  rule [while]: <k> while (B) B1 => if (B) { { B1 } while (B) B1 } else { } ...</k>
  rule [declare]: <k> int (_ , Xs => Xs) ; _ ...</k>
  rule [start]: <k> int .Ids ; S => S ...</k> <state> _ => <n> 0 </n> <sum> 0 </sum> </state>

  // of +, and alike of *, /, -, <=; the other sides of !, = and `if` are heated at 100 and cooled
  rule <k> K0:AExp + K1:AExp => K0 ~> #freezer_+_0(K1) ...</k> [priority(110)]
  rule <k> I1:Int + K1:AExp => K1 ~> #freezer_+_1(I1) ...</k> [priority(100)]
  rule <k> I1:Int ~> #freezer_+_0(K1) => I1 + K1 ...</k>
  rule <k> I2:Int ~> #freezer_+_1(I1) => I1 + I2 ...</k>
endmodule
