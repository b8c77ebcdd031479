// JSON as RFC 8259 has it, over tokens: the lexer takes blanks away, and reads strings and numbers.

%token STRING NUMBER false null true

%start Text

%%

Text: Value
    ;
Value: false
     | null
     | true
     | Object
     | Array
     | NUMBER
     | STRING
     ;
Object: '{' '}'
      | '{' Members '}'
      ;
Members: Member
       | Members ',' Member
       ;
Member: STRING ':' Value
      ;
Array: '[' ']'
     | '[' Values ']'
     ;
Values: Value
      | Values ',' Value
      ;
