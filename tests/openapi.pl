# Tests an OpenAPI description and sends each of its operations' examples, in their order: FILE PORT.
use strict;
use warnings;
use HTTP::Tiny;
use JSON::PP;
use JSON::Validator::Schema::OpenAPIv3;
use YAML::PP;
use YAML::PP::Common qw(PRESERVE_ORDER);

my ($file, $port) = @ARGV;
my @faults = @{JSON::Validator::Schema::OpenAPIv3->new($file)->errors};
die join("\n", @faults), "\n" if @faults;

my $about = YAML::PP->new(preserve => PRESERVE_ORDER, boolean => 'JSON::PP')->load_file($file);
my $json = JSON::PP->new->canonical->allow_nonref;
my $keys = 0;

# what a reference stands for
sub found {
  my ($part) = @_;
  return $part unless $part->{'$ref'};
  my $there = $about;
  $there = $there->{$_} for split m{/}, $part->{'$ref'} =~ s{^#/}{}r;
  return $there;
}

# the one body that is described, with its media type
sub body_of {
  my ($part) = @_;
  my ($type) = keys %{$part->{content}};
  my $example = $part->{content}{$type}{example};
  return ($type, $type eq 'application/json' ? $json->encode($example) : $example);
}

# sends an operation's example, and compares the page
sub asks {
  my ($path, $method, $operation) = @_;
  my %fields;
  for my $parameter (map { found($_) } @{$operation->{parameters}}) {
    my $value = $parameter->{example};
    $value = 'example-' . ++$keys if $parameter->{name} eq 'Desk-Key';
    $fields{$parameter->{name}} = $value if $parameter->{in} eq 'header';
    $path =~ s/\{$parameter->{name}\}/$value/ if $parameter->{in} eq 'path';
  }
  my $body = '';
  ($fields{'Content-Type'}, $body) = body_of($operation->{requestBody}) if $operation->{requestBody};
  $fields{'Content-Length'} = length $body if $method eq 'post';
  my $answer = HTTP::Tiny->new(timeout => 20)->request(uc $method, "http://127.0.0.1:$port$path",
    {headers => \%fields, $method eq 'post' ? (content => $body) : ()});
  my ($type, $expected) = body_of(found($operation->{responses}{200}));
  my $told = $answer->{content};
  die "$method $path: $answer->{status} $answer->{headers}{'content-type'} $told\n"
    unless $answer->{status} == 200 && $answer->{headers}{'content-type'} eq $type && $told eq $expected;
}

my $answered = 0;
for my $path (keys %{$about->{paths}}) {
  for my $method (keys %{$about->{paths}{$path}}) {
    asks($path, $method, $about->{paths}{$path}{$method});
    $answered++;
  }
}
print "$answered answered as described\n";
