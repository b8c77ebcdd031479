// C11 over tokens. A name that a typedef declared is a token of its own, TYPEDEF_NAME, which the lexer tells from
// IDENTIFIER by what was declared before. It must give IDENTIFIER for such a name too behind `struct`, `union`, `enum`,
// `goto`, `.` and `->`, for a label, and where a declaration declares the name anew, as `T` in `int T;`. It joins strings
// that stand side by side.

%token IDENTIFIER TYPEDEF_NAME INTEGER FLOATING CHARACTER STRING
%token auto break case char const continue default do double else enum extern float for goto if inline int long
%token register restrict return short signed sizeof static struct switch typedef union unsigned void volatile while
%token _Alignas _Alignof _Atomic _Bool _Complex _Generic _Imaginary _Noreturn _Static_assert _Thread_local

/* `else` belongs to the nearest `if`: the production of an `if` alone has the precedence of its `)`. */
%nonassoc ')'
%nonassoc else

/* A `(` behind `_Atomic` belongs to the type specifier: the production of the qualifier alone has the precedence of its
   `_Atomic`, which is the lower. */
%nonassoc _Atomic
%nonassoc '('

%start TranslationUnit

%%

/* Expressions */

Primary: IDENTIFIER
       | Constant
       | STRING
       | '(' Expression ')'
       | Generic
       ;

Constant: INTEGER
        | FLOATING
        | CHARACTER
        ;

Generic: _Generic '(' Assignment ',' Associations ')'
       ;

Associations: Association
            | Associations ',' Association
            ;

Association: TypeName ':' Assignment
           | default ':' Assignment
           ;

Postfix: Primary
       | Postfix '[' Expression ']'
       | Postfix '(' ')'
       | Postfix '(' Arguments ')'
       | Postfix '.' IDENTIFIER
       | Postfix "->" IDENTIFIER
       | Postfix "++"
       | Postfix "--"
       | '(' TypeName ')' '{' Initializers '}'
       | '(' TypeName ')' '{' Initializers ',' '}'
       ;

Arguments: Assignment
         | Arguments ',' Assignment
         ;

Unary: Postfix
     | "++" Unary
     | "--" Unary
     | UnaryOperator Cast
     | sizeof Unary
     | sizeof '(' TypeName ')'
     | _Alignof '(' TypeName ')'
     ;

UnaryOperator: '&'
             | '*'
             | '+'
             | '-'
             | '~'
             | '!'
             ;

Cast: Unary
    | '(' TypeName ')' Cast
    ;

Multiplicative: Cast
              | Multiplicative '*' Cast
              | Multiplicative '/' Cast
              | Multiplicative '%' Cast
              ;

Additive: Multiplicative
        | Additive '+' Multiplicative
        | Additive '-' Multiplicative
        ;

Shift: Additive
     | Shift "<<" Additive
     | Shift ">>" Additive
     ;

Relational: Shift
          | Relational '<' Shift
          | Relational '>' Shift
          | Relational "<=" Shift
          | Relational ">=" Shift
          ;

Equality: Relational
        | Equality "==" Relational
        | Equality "!=" Relational
        ;

And: Equality
   | And '&' Equality
   ;

ExclusiveOr: And
           | ExclusiveOr '^' And
           ;

InclusiveOr: ExclusiveOr
           | InclusiveOr '|' ExclusiveOr
           ;

LogicalAnd: InclusiveOr
          | LogicalAnd "&&" InclusiveOr
          ;

LogicalOr: LogicalAnd
         | LogicalOr "||" LogicalAnd
         ;

Conditional: LogicalOr
           | LogicalOr '?' Expression ':' Conditional
           ;

Assignment: Conditional
          | Unary AssignmentOperator Assignment
          ;

AssignmentOperator: '='
                  | "*="
                  | "/="
                  | "%="
                  | "+="
                  | "-="
                  | "<<="
                  | ">>="
                  | "&="
                  | "^="
                  | "|="
                  ;

Expression: Assignment
          | Expression ',' Assignment
          ;

ConstantExpression: Conditional
                  ;

/* Declarations */

Declaration: Specifiers ';'
           | Specifiers InitDeclarators ';'
           | StaticAssert
           ;

Specifiers: StorageClass
          | StorageClass Specifiers
          | TypeSpecifier
          | TypeSpecifier Specifiers
          | TypeQualifier
          | TypeQualifier Specifiers
          | FunctionSpecifier
          | FunctionSpecifier Specifiers
          | Alignment
          | Alignment Specifiers
          ;

InitDeclarators: InitDeclarator
               | InitDeclarators ',' InitDeclarator
               ;

InitDeclarator: Declarator
              | Declarator '=' Initializer
              ;

StorageClass: typedef
            | extern
            | static
            | _Thread_local
            | auto
            | register
            ;

TypeSpecifier: void
             | char
             | short
             | int
             | long
             | float
             | double
             | signed
             | unsigned
             | _Bool
             | _Complex
             | _Imaginary
             | _Atomic '(' TypeName ')'
             | StructOrUnion
             | Enum
             | TYPEDEF_NAME
             ;

StructOrUnion: StructWord '{' Members '}'
             | StructWord IDENTIFIER '{' Members '}'
             | StructWord IDENTIFIER
             ;

StructWord: struct
          | union
          ;

Members: Member
       | Members Member
       ;

Member: SpecifierQualifiers ';'
      | SpecifierQualifiers MemberDeclarators ';'
      | StaticAssert
      ;

SpecifierQualifiers: TypeSpecifier SpecifierQualifiers
                   | TypeSpecifier
                   | TypeQualifier SpecifierQualifiers
                   | TypeQualifier
                   ;

MemberDeclarators: MemberDeclarator
                 | MemberDeclarators ',' MemberDeclarator
                 ;

MemberDeclarator: ':' ConstantExpression
                | Declarator ':' ConstantExpression
                | Declarator
                ;

Enum: enum '{' Enumerators '}'
    | enum '{' Enumerators ',' '}'
    | enum IDENTIFIER '{' Enumerators '}'
    | enum IDENTIFIER '{' Enumerators ',' '}'
    | enum IDENTIFIER
    ;

Enumerators: Enumerator
           | Enumerators ',' Enumerator
           ;

Enumerator: IDENTIFIER '=' ConstantExpression
          | IDENTIFIER
          ;

TypeQualifier: const
             | restrict
             | volatile
             | _Atomic
             ;

FunctionSpecifier: inline
                 | _Noreturn
                 ;

Alignment: _Alignas '(' TypeName ')'
         | _Alignas '(' ConstantExpression ')'
         ;

Declarator: Pointer DirectDeclarator
          | DirectDeclarator
          ;

DirectDeclarator: IDENTIFIER
                | '(' Declarator ')'
                | DirectDeclarator '[' ']'
                | DirectDeclarator '[' '*' ']'
                | DirectDeclarator '[' static TypeQualifiers Assignment ']'
                | DirectDeclarator '[' static Assignment ']'
                | DirectDeclarator '[' TypeQualifiers '*' ']'
                | DirectDeclarator '[' TypeQualifiers static Assignment ']'
                | DirectDeclarator '[' TypeQualifiers Assignment ']'
                | DirectDeclarator '[' TypeQualifiers ']'
                | DirectDeclarator '[' Assignment ']'
                | DirectDeclarator '(' ParameterTypes ')'
                | DirectDeclarator '(' ')'
                | DirectDeclarator '(' Identifiers ')'
                ;

Pointer: '*' TypeQualifiers Pointer
       | '*' TypeQualifiers
       | '*' Pointer
       | '*'
       ;

TypeQualifiers: TypeQualifier
              | TypeQualifiers TypeQualifier
              ;

ParameterTypes: Parameters
              | Parameters ',' "..."
              ;

Parameters: Parameter
          | Parameters ',' Parameter
          ;

Parameter: Specifiers Declarator
         | Specifiers AbstractDeclarator
         | Specifiers
         ;

Identifiers: IDENTIFIER
           | Identifiers ',' IDENTIFIER
           ;

TypeName: SpecifierQualifiers AbstractDeclarator
        | SpecifierQualifiers
        ;

AbstractDeclarator: Pointer DirectAbstractDeclarator
                  | Pointer
                  | DirectAbstractDeclarator
                  ;

DirectAbstractDeclarator: '(' AbstractDeclarator ')'
                        | '[' ']'
                        | '[' '*' ']'
                        | '[' static TypeQualifiers Assignment ']'
                        | '[' static Assignment ']'
                        | '[' TypeQualifiers static Assignment ']'
                        | '[' TypeQualifiers Assignment ']'
                        | '[' TypeQualifiers ']'
                        | '[' Assignment ']'
                        | DirectAbstractDeclarator '[' ']'
                        | DirectAbstractDeclarator '[' '*' ']'
                        | DirectAbstractDeclarator '[' static TypeQualifiers Assignment ']'
                        | DirectAbstractDeclarator '[' static Assignment ']'
                        | DirectAbstractDeclarator '[' TypeQualifiers static Assignment ']'
                        | DirectAbstractDeclarator '[' TypeQualifiers Assignment ']'
                        | DirectAbstractDeclarator '[' TypeQualifiers ']'
                        | DirectAbstractDeclarator '[' Assignment ']'
                        | '(' ')'
                        | '(' ParameterTypes ')'
                        | DirectAbstractDeclarator '(' ')'
                        | DirectAbstractDeclarator '(' ParameterTypes ')'
                        ;

Initializer: '{' Initializers '}'
           | '{' Initializers ',' '}'
           | Assignment
           ;

Initializers: Designation Initializer
            | Initializer
            | Initializers ',' Designation Initializer
            | Initializers ',' Initializer
            ;

Designation: Designators '='
           ;

Designators: Designator
           | Designators Designator
           ;

Designator: '[' ConstantExpression ']'
          | '.' IDENTIFIER
          ;

StaticAssert: _Static_assert '(' ConstantExpression ',' STRING ')' ';'
            ;

/* Statements */

Statement: Labeled
         | Compound
         | ExpressionStatement
         | Selection
         | Iteration
         | Jump
         ;

Labeled: IDENTIFIER ':' Statement
       | case ConstantExpression ':' Statement
       | default ':' Statement
       ;

Compound: '{' '}'
        | '{' BlockItems '}'
        ;

BlockItems: BlockItem
          | BlockItems BlockItem
          ;

BlockItem: Declaration
         | Statement
         ;

ExpressionStatement: ';'
                   | Expression ';'
                   ;

Selection: if '(' Expression ')' Statement
         | if '(' Expression ')' Statement else Statement
         | switch '(' Expression ')' Statement
         ;

Iteration: while '(' Expression ')' Statement
         | do Statement while '(' Expression ')' ';'
         | for '(' ExpressionStatement ExpressionStatement ')' Statement
         | for '(' ExpressionStatement ExpressionStatement Expression ')' Statement
         | for '(' Declaration ExpressionStatement ')' Statement
         | for '(' Declaration ExpressionStatement Expression ')' Statement
         ;

Jump: goto IDENTIFIER ';'
    | continue ';'
    | break ';'
    | return ';'
    | return Expression ';'
    ;

/* Whole texts */

TranslationUnit: ExternalDeclaration
               | TranslationUnit ExternalDeclaration
               ;

ExternalDeclaration: Function
                   | Declaration
                   ;

Function: Specifiers Declarator Declarations Compound
        | Specifiers Declarator Compound
        ;

Declarations: Declaration
            | Declarations Declaration
            ;
