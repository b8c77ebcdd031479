// The whole grammar of Lua 5.4 over tokens. Its operators stand as layered rules, the loosest first.
//
// A `(` behind a call or another prefix may belong to it or begin the next statement. Lua has it belong to the prefix, and
// so have the rules for conflicts: where an expression could end, shifting wins; where a statement could end, `Prefix: Call`
// wins over `Statement: Call` as the lesser production. For that `Prefix` stands in front of `Statement`.

%token Name LiteralString Numeral
%token and break do else elseif end false for function goto if in local nil not or repeat return then true until while

%start Chunk

%%

Chunk: Block
     ;
Block: Statements
     | Statements Return
     ;
Statements:
          | Statements Statement
          ;
Prefix: Variable
      | Call
      | '(' Expression ')'
      ;
Statement: ';'
         | Variables '=' Expressions
         | Call
         | Label
         | break
         | goto Name
         | do Block end
         | while Expression do Block end
         | repeat Block until Expression
         | if Expression then Block ElseIfs Else end
         | for Name '=' Expression ',' Expression do Block end
         | for Name '=' Expression ',' Expression ',' Expression do Block end
         | for Names in Expressions do Block end
         | function FunctionName FunctionBody
         | local function Name FunctionBody
         | local AttributedNames
         | local AttributedNames '=' Expressions
         ;
ElseIfs:
       | ElseIfs elseif Expression then Block
       ;
Else:
    | else Block
    ;
AttributedNames: Name Attribute
               | AttributedNames ',' Name Attribute
               ;
Attribute:
         | '<' Name '>'
         ;
Return: return Semicolon
      | return Expressions Semicolon
      ;
Semicolon:
         | ';'
         ;
Label: "::" Name "::"
     ;
FunctionName: DottedName
            | DottedName ':' Name
            ;
DottedName: Name
          | DottedName '.' Name
          ;
Variables: Variable
         | Variables ',' Variable
         ;
Variable: Name
        | Prefix '[' Expression ']'
        | Prefix '.' Name
        ;
Names: Name
     | Names ',' Name
     ;
Expressions: Expression
           | Expressions ',' Expression
           ;
Expression: Disjunction
          ;
Disjunction: Conjunction
           | Disjunction or Conjunction
           ;
Conjunction: Comparison
           | Conjunction and Comparison
           ;
Comparison: BitOr
          | Comparison '<' BitOr
          | Comparison '>' BitOr
          | Comparison "<=" BitOr
          | Comparison ">=" BitOr
          | Comparison "~=" BitOr
          | Comparison "==" BitOr
          ;
BitOr: BitXor
     | BitOr '|' BitXor
     ;
BitXor: BitAnd
      | BitXor '~' BitAnd
      ;
BitAnd: Shift
      | BitAnd '&' Shift
      ;
Shift: Concatenation
     | Shift "<<" Concatenation
     | Shift ">>" Concatenation
     ;
Concatenation: Sum
             | Sum ".." Concatenation
             ;
Sum: Product
   | Sum '+' Product
   | Sum '-' Product
   ;
Product: Unary
       | Product '*' Unary
       | Product '/' Unary
       | Product "//" Unary
       | Product '%' Unary
       ;
Unary: Power
     | not Unary
     | '#' Unary
     | '-' Unary
     | '~' Unary
     ;
Power: Simple
     | Simple '^' Unary
     ;
Simple: nil
      | false
      | true
      | Numeral
      | LiteralString
      | "..."
      | Function
      | Prefix
      | TableConstructor
      ;
Call: Prefix Arguments
    | Prefix ':' Name Arguments
    ;
Arguments: '(' ')'
         | '(' Expressions ')'
         | TableConstructor
         | LiteralString
         ;
Function: function FunctionBody
        ;
FunctionBody: '(' ')' Block end
            | '(' Parameters ')' Block end
            ;
Parameters: Names
          | Names ',' "..."
          | "..."
          ;
TableConstructor: '{' '}'
                | '{' Fields '}'
                | '{' Fields Separator '}'
                ;
Fields: Field
      | Fields Separator Field
      ;
Field: '[' Expression ']' '=' Expression
     | Name '=' Expression
     | Expression
     ;
Separator: ','
         | ';'
         ;
